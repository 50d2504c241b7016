// The page: the position that is shown, the questions about it, and what the board is used for: to put stones, to see
// why, for a game, or for a pattern.

import { Board } from "./board.js";
import { byId, button, colourName, counted, joined, make, other, spelled } from "./elements.js";
import { Game } from "./game.js";
import { Pattern } from "./pattern.js";
import { pngOf, save, svgOf } from "./pictures.js";
import { MOST, Position, Shown, moveTold } from "./position.js";
import { Desk, call } from "./questions.js";
import { Why } from "./why.js";

const DOING = {
  solve: "hx solve searches", check: "hx check reads the tree", play: "hx play answers", template: "hx template tries",
  "": "it begins",
};
const NO_ANSWER = "tools/board does not answer. "
  + "Where it has ended, start it again, and open the address that it writes.";
const ACCEPTED = "hx check accepted the tree that proves it.";
const TICK = 100; // milliseconds between two looks at the clock
const RAN_OUT = { budget: "units were used up", proofs: "proved positions were kept, and there is no room for more" };

class Page {
  constructor(start) {
    Object.assign(this, { start, mode: null, signs: {}, found: null, rendering: Promise.resolve(), pattern: null });
    const ofFile = start.position && Position.from(start.position);
    this.shown = new Shown(Position.ofLink(location.hash) || ofFile || new Position(7, 7), "Start");
    this.board = new Board(byId("board"), (cell) => this.click(cell));
    const connected = (isThere) => this.showConnection(isThere);
    this.desk = new Desk({ told: (told) => this.showProgress(told), connected });
    setInterval(() => this.tick(), TICK);
  }

  // The position that is looked at.
  get position() {
    return this.mode ? this.mode.position : this.shown.position;
  }

  // ---- The position

  // Shows another position. What was known of the old one is forgotten, and a question about it ends.
  show(position, told) {
    this.shown.add(position, told);
    this.changed();
  }

  changed() {
    this.forget();
    this.desk.stop();
    this.render();
  }

  forget() {
    Object.assign(this, { signs: {}, found: null });
    this.say("");
  }

  click(cell) {
    if (this.mode) this.mode.click(cell);
    else this.edit[document.querySelector("[name=tool]:checked").value](cell);
  }

  edit = {
    turns: (cell) => {
      if (!this.position.isEmpty(cell)) this.say(`${cell} has a stone.`);
      else this.show(this.position.play(cell), moveTold(this.position.mover, cell));
    },
    black: (cell) => this.putStone(cell, "black"),
    white: (cell) => this.putStone(cell, "white"),
    away: (cell) => {
      if (!this.position.isEmpty(cell)) this.show(this.position.take(cell), `${cell} taken away`);
    },
  };

  putStone(cell, colour) {
    if (this.position.stones.get(cell) === colour) return;
    this.show(this.position.put(cell, colour), `${moveTold(colour, cell)}, put`);
  }

  setMover(mover) {
    this.enter(null);
    if (mover !== this.position.mover) this.show(this.position.withMover(mover), `${colourName[mover]} to move`);
  }

  go(at) {
    if (!this.shown.canGo(at)) return;
    this.enter(null);
    this.shown.go(at);
    this.changed();
  }

  undo() {
    if (this.mode?.undo) this.mode.undo();
    else this.go(this.shown.at - 1);
  }

  canUndo() {
    return this.mode?.undo ? this.mode.canUndo() : this.shown.canGo(this.shown.at - 1);
  }

  emptyBoard() {
    const lengthIn = (name) => Math.min(Math.max(Math.trunc(Number(byId(name).value)) || 1, 1), MOST);
    const [rows, columns] = ["rows", "columns"].map(lengthIn);
    this.enter(null);
    this.show(new Position(rows, columns), `Empty, ${rows} by ${columns}`);
  }

  // ---- What the board is used for

  enter(mode) {
    if (this.mode) this.mode.leave();
    this.mode = mode;
    if (mode) this.signs = {};
    this.render();
  }

  // ---- Questions

  options() {
    const given = ["workers", "budget", "proofs"].map((name) => [name, byId(name).value])
      .filter(([, value]) => value !== "");
    return Object.fromEntries(given.map(([name, value]) => [name, Number(value)]));
  }

  async ask(sent) {
    this.say("");
    const told = await this.desk.ask(sent);
    byId("running").hidden = true;
    if (told.phase === "stopped") this.say(`Stopped: ${told.why}.`);
    if (told.phase === "failed") this.say(`No answer: ${told.why}`);
    this.render();
    return told;
  }

  // What a question about the position comes to, where that position is still shown then.
  async askPosition(question) {
    const asked = this.position;
    const told = await this.ask({ question, ...asked.asked(), options: this.options() });
    return told.phase === "done" && asked.isSame(this.position) ? told : null;
  }

  async askWho() {
    this.enter(null);
    this.signs = {};
    const told = await this.askPosition("who");
    if (told) this.take(told);
  }

  async askMoves() {
    this.enter(null);
    this.signs = {};
    const told = await this.askPosition("moves");
    if (told) this.take(told);
  }

  // An answer about the position: who wins, and the marks.
  take(told) {
    this.found = told.tree ? { tree: told.tree, position: this.position } : null;
    this.signs = told.marks || (told.move ? { [told.move]: "+" } : {});
    const isOfMoves = told.marks && !told.chain;
    const words = isOfMoves ? this.movesTold(told) : this.whoTold(told);
    this.say(words, [isOfMoves ? this.winsListed(told) : "", told.tree ? ACCEPTED : ""].filter(Boolean).join(" "));
    this.render();
  }

  // The winning moves, where there are so many that the answer only counts them.
  winsListed({ winner, marks }) {
    const wins = this.position.cells.filter((cell) => marks[cell] === "+");
    return winner === this.position.mover && wins.length > 1 ? `By ${wins.join(" ")}.` : "";
  }

  whoTold({ winner, chain, move, ...open }) {
    const { mover } = this.position;
    if (chain) return `${colourName[chain]} has joined ${joined[chain]} and won.`;
    if (!winner) return this.openTold("Who wins", open);
    if (winner !== mover) return `${colourName[winner]} wins, whatever ${colourName[mover]} plays.`;
    return move ? `${colourName[winner]} wins, by ${move}.` : `${colourName[winner]} wins.`;
  }

  openTold(what, { open, most, raise }) {
    const where = "under \u201cSearch options\u201d, or start tools/board with more";
    return `${what} was left open: ${spelled(most)} ${RAN_OUT[open]}. Raise ${raise} ${where}.`;
  }

  movesTold(told) {
    const { mover } = this.position;
    const cells = this.position.cells.filter((cell) => cell in told.marks);
    const [wins, opens] = ["+", "?"].map((mark) => cells.filter((cell) => told.marks[cell] === mark));
    if (told.winner === other[mover]) return this.whoTold(told);
    const rest = opens.length ? ` ${this.openTold(counted(opens.length, "move"), told)}` : "";
    if (!wins.length) return rest.trim();
    const alone = wins.length === 1 && !opens.length ? `${wins[0]} alone`
      : `${wins.length} of ${counted(cells.length, "move")}`;
    return `${colourName[mover]} wins, by ${alone}.${rest}`;
  }

  async askWhy() {
    if (this.mode) this.enter(null);
    if (!this.found?.position.isSame(this.position)) {
      this.found = null;
      const told = await this.askPosition("who");
      if (told) this.take(told);
    }
    if (!this.found) return;
    try {
      const tree = await call(`tree/${this.found.tree}`);
      this.enter(new Why(this, tree, this.start));
    } catch (wrong) {
      this.found = null;
      this.say(wrong.message);
    }
  }

  async askGame() {
    this.enter(null);
    this.signs = {};
    const told = await this.askPosition("plain");
    if (!told) return;
    if (!told.winner) this.say(this.openTold("Who wins", told));
    else this.enter(new Game(this, told));
    if (told.winner) this.say(`${colourName[told.winner]} wins.`, ACCEPTED);
  }

  askPattern(template) {
    this.pattern = this.pattern || new Pattern(this);
    if (template) this.pattern.take(template);
    this.forget();
    this.enter(this.pattern);
  }

  // ---- What is said

  say(words, more = "") {
    byId("answer").textContent = words;
    byId("proof").textContent = more;
  }

  showProgress(told) {
    this.told = told;
    byId("running").hidden = false;
    if (told.marks) this.signs = told.marks;
    this.tick();
    if (told.marks && !this.mode) this.render();
  }

  tick() {
    if (!this.desk.isAsking()) return;
    const { doing, building, left, cell } = this.told;
    const what = building ? "the program is built first; the terminal tells how far it is" : DOING[doing];
    const cells = left ? `, ${counted(left, "move")} left${cell ? `, now ${cell}` : ""}` : "";
    byId("progress").textContent = `${this.desk.elapsed().toFixed(1)} s: ${what}${cells}`;
  }

  showConnection(isThere) {
    byId("connection").hidden = isThere;
    byId("connection").textContent = isThere ? "" : NO_ANSWER;
  }

  // ---- What is shown

  // One after the other, since the board of another size is asked for.
  render() {
    this.rendering = this.rendering.then(() => this.renderNow());
    return this.rendering;
  }

  async renderNow() {
    const { position, mode } = this;
    await this.board.setSize(position.rows, position.columns);
    if (this.position !== position || this.mode !== mode) return; // another one is shown next
    this.board.show(position, mode ? mode.marks() : { signs: this.signs });
    if (mode) mode.shown();
    this.showTools();
    this.showMoves();
    if (!mode) history.replaceState(null, "", position.link());
  }

  showTools() {
    const isPattern = this.mode !== null && this.mode === this.pattern;
    byId("click-tools").hidden = this.mode !== null;
    byId("pattern-tools").hidden = !isPattern;
    byId("pattern").hidden = !isPattern;
    byId("hint").hidden = !this.mode?.hint;
    byId("hint").textContent = this.mode?.hint || "";
    document.querySelector(`[name=mover][value=${this.position.mover}]`).checked = true;
    byId("undo").disabled = !this.canUndo();
    byId("redo").disabled = !this.shown.canGo(this.shown.at + 1);
  }

  showMoves() {
    const lines = this.shown.entries.map(({ told }, at) => {
      const line = button(told, () => this.go(at));
      if (at === this.shown.at) line.setAttribute("aria-current", "step");
      return make("li", [line], { className: at > this.shown.at ? "undone" : "" });
    });
    byId("moves").replaceChildren(...lines);
    const current = byId("moves").children[this.shown.at];
    byId("moves").scrollTop = Math.max(0, current.offsetTop - byId("moves").offsetTop - byId("moves").clientHeight / 2);
  }

  // ---- In and out

  async paste() {
    const { rows, columns } = this.position;
    byId("read-wrong").textContent = "";
    try {
      const { found, wrong } = await call("read", { text: byId("pasted").value, rows, columns });
      if (wrong) byId("read-wrong").textContent = wrong;
      else this.takeRead(found);
    } catch (wrong) {
      byId("read-wrong").textContent = wrong.message;
    }
  }

  takeRead(found) {
    this.enter(null);
    this.show(Position.from(found), "Pasted");
    if (found.owner) this.askPattern(found);
  }

  takeLink() {
    const position = Position.ofLink(location.hash);
    if (!position || position.isSame(this.shown.position)) return;
    this.enter(null);
    this.show(position, "Link");
  }

  async takeText(form) {
    const isPattern = this.mode !== null && this.mode === this.pattern && this.pattern.ends.length === 2;
    const asked = isPattern ? this.pattern.asked() : { ...this.position.asked(), marks: this.mode ? {} : this.signs };
    this.showTaken((await call("texts", asked))[form]);
  }

  takeAddress() {
    this.showTaken(location.href.split("#")[0] + this.position.link());
  }

  showTaken(text) {
    Object.assign(byId("taken"), { value: text, hidden: false });
    byId("copy").hidden = false;
    byId("copied").textContent = "";
  }

  async copy() {
    byId("taken").select();
    const isCopied = await navigator.clipboard.writeText(byId("taken").value).then(() => true, () => false);
    byId("copied").textContent = isCopied ? "Copied." : "Marked: copy it by the keyboard.";
  }

  async takeSvg() {
    save(new Blob([await svgOf(this.board.svg)], { type: "image/svg+xml" }), "board.svg");
  }

  async takePng() {
    save(await pngOf(this.board.svg), "board.png");
  }
}

function connect(page) {
  const clicks = {
    "ask-who": () => page.askWho(), "ask-moves": () => page.askMoves(), "ask-why": () => page.askWhy(),
    "ask-game": () => page.askGame(), "ask-pattern": () => page.askPattern(), stop: () => page.desk.stop(),
    undo: () => page.undo(), redo: () => page.go(page.shown.at + 1), empty: () => page.emptyBoard(),
    read: () => page.paste(), "as-text": () => page.takeText("text"), "as-drawn": () => page.takeText("drawn"),
    "as-link": () => page.takeAddress(), "as-svg": () => page.takeSvg(), "as-png": () => page.takePng(),
    copy: () => page.copy(),
  };
  for (const [id, clicked] of Object.entries(clicks)) byId(id).onclick = clicked;
  for (const mover of document.querySelectorAll("[name=mover]")) mover.onchange = () => page.setMover(mover.value);
  for (const form of document.forms) form.onsubmit = (event) => event.preventDefault();
  addEventListener("hashchange", () => page.takeLink());
  addEventListener("keydown", (event) => pressed(page, event));
}

// Undo and redo as everywhere, but where something is written.
function pressed(page, event) {
  const isTyped = ["INPUT", "TEXTAREA", "SELECT"].includes(event.target.tagName);
  if (!(event.ctrlKey || event.metaKey) || event.altKey || isTyped) return;
  const key = event.key.toLowerCase();
  if (key === "z" && !event.shiftKey) page.undo();
  else if (key === "y" || key === "z") page.go(page.shown.at + 1);
  else return;
  event.preventDefault();
}

function setOptions({ options, limits }) {
  for (const [name, [min, max]] of Object.entries(limits))
    Object.assign(byId(name), { min, max, value: options[name] ?? "" });
}

async function begin() {
  const start = await call("start");
  setOptions(start);
  const page = new Page(start);
  connect(page);
  if (start.position?.owner && !Position.ofLink(location.hash)) page.askPattern(start.position);
  await page.render();
}

begin();
