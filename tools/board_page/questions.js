// Asks the server. One question runs at a time; what is known of it comes as events.

// Calls the server, and gives its answer or throws what it says.
export async function call(path, sent) {
  const asked = sent && { method: "POST", headers: { "Content-Type": "application/json" }, body: JSON.stringify(sent) };
  const answer = await fetch(path, asked);
  if (!answer.ok) throw new Error((await answer.text()).trim());
  return answer.headers.get("Content-Type").startsWith("application/json") ? answer.json() : answer.text();
}

export class Desk {
  constructor({ told, connected }) {
    Object.assign(this, { onTold: told, onConnected: connected, events: null, waiting: null, last: { id: 0 } });
    document.addEventListener("visibilitychange", () => this.connectAsNeeded());
    this.connectAsNeeded();
  }

  // A browser has few connections to one server, so a page that nobody sees and that asks nothing holds none.
  connectAsNeeded() {
    const isNeeded = !document.hidden || this.isAsking();
    if (isNeeded && !this.events) this.connect();
    else if (!isNeeded && this.events) {
      this.events.close();
      this.events = null;
    }
  }

  connect() {
    this.events = new EventSource("events");
    this.events.onmessage = (event) => this.take(JSON.parse(event.data));
    this.events.onopen = () => this.onConnected(true);
    this.events.onerror = () => this.onConnected(false);
  }

  isAsking() {
    return this.waiting !== null;
  }

  // Asks, and gives what is told in the end. What is told before comes to `onTold`.
  async ask(sent) {
    this.end({ phase: "stopped", why: "another question was asked" });
    const waiting = { id: 0, since: performance.now() };
    this.waiting = waiting;
    const ended = new Promise((done) => { waiting.done = done; });
    this.onTold({ phase: "asking", question: sent.question, elapsed: 0, doing: "" });
    try {
      waiting.id = (await call("ask", sent)).id;
      if (this.waiting === waiting) this.take(this.last);
    } catch (wrong) {
      if (this.waiting === waiting) this.end({ phase: "failed", why: wrong.message });
    }
    return ended;
  }

  take(told) {
    this.last = told;
    if (!this.waiting?.id || told.id < this.waiting.id) return;
    if (told.id > this.waiting.id) this.end({ phase: "stopped", why: "another page asked a question" });
    else if (told.phase !== "asking") this.end(told);
    else {
      this.waiting.since = performance.now() - 1000 * told.elapsed;
      this.onTold(told);
    }
  }

  // Seconds since the question was asked.
  elapsed() {
    return this.waiting ? (performance.now() - this.waiting.since) / 1000 : 0;
  }

  end(told) {
    const { waiting } = this;
    this.waiting = null;
    if (waiting) waiting.done(told);
    this.connectAsNeeded();
  }

  async stop() {
    if (this.waiting) await call("stop", {}).catch(() => {});
  }
}
