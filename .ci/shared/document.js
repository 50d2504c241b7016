// Runs pages of trees in node, with as much of a document as they ask for: node .ci/shared/document.js PAGE..
//
// Each file is a page with the task and the script that `.ci/page` put into it. Writes a line of JSON for each: what
// the script reported, or nothing but `null` where it reported nothing.

const fs = require("node:fs");
const vm = require("node:vm");

class Classes extends Set {
  remove(name) {
    this.delete(name);
  }

  toggle(name, isThere) {
    if (isThere) this.add(name);
    else this.delete(name);
  }
}

class Element {
  constructor(tag, attributes = {}) {
    Object.assign(this, { tag, attributes, held: [], dataset: {}, listeners: {}, classList: new Classes() });
    if ("class" in attributes) this.className = attributes.class;
    if ("data-cell" in attributes) this.dataset.cell = attributes["data-cell"];
  }

  set className(names) {
    this.classList = new Classes(names.split(" "));
  }

  get textContent() {
    return this.held.map((one) => (typeof one === "string" ? one : one.textContent)).join("");
  }

  set textContent(text) {
    this.held = [text];
  }

  append(...those) {
    this.held.push(...those.map((one) => (one instanceof Element ? one : String(one))));
  }

  replaceChildren(...those) {
    this.held = [];
    this.append(...those);
  }

  addEventListener(name, call) {
    this.listeners[name] = call;
  }

  getAttribute(name) {
    return this.attributes[name];
  }

  setAttribute(name, value) {
    this.attributes[name] = value;
  }
}

const attributesIn = (tag) => Object.fromEntries(
  [...tag.matchAll(/ ([a-zA-Z-]+)="([^"]*)"/g)].map(([, name, value]) => [name, value]));

// The elements of the page that have a name of their own, the cells of the board and its chain.
class Page {
  constructor(source) {
    const begin = source.indexOf('id="tree">') + 'id="tree">'.length;
    this.tree = source.slice(begin, source.indexOf("</script>", begin));
    this.scripts = source.slice(begin + this.tree.length).matchAll(/<script>\n([^]*?)<\/script>/g);
    const tags = [...source.slice(0, begin).matchAll(/<([a-z]+)((?: [a-zA-Z-]+="[^"]*")+)\/?>/g)].map(
      ([, tag, attributes]) => new Element(tag, attributesIn(attributes)));
    this.byId = new Map(tags.filter((one) => "id" in one.attributes).map((one) => [one.attributes.id, one]));
    this.byId.get("tree").textContent = this.tree;
    this.cells = tags.filter((one) => "cell" in one.dataset);
    this.board = tags.find((one) => one.tag === "svg");
    this.chain = tags.findLast((one) => one.attributes.class === "chain" && one.attributes.points === "");
  }

  getElementById(id) {
    return this.byId.get(id);
  }

  querySelectorAll(wanted) {
    return wanted === "[data-cell]" ? this.cells : [];
  }

  querySelector(wanted) {
    return { ".chain": this.chain, "figure > svg": this.board }[wanted] || null;
  }

  createElement(tag) {
    return new Element(tag);
  }
}

// The address and the history. What changes the address is told later, as in a browser.
class Address {
  constructor(tell) {
    Object.assign(this, { tell, hashes: [""], at: 0 });
  }

  get hash() {
    return this.hashes[this.at];
  }

  set hash(value) {
    const hash = `#${String(value).replace("#", "")}`;
    if (hash === this.hash) return;
    this.hashes.splice(this.at + 1, Infinity, hash);
    this.at += 1;
    setImmediate(() => this.tell({ type: "hashchange" }));
  }

  back() {
    this.at -= 1;
    setImmediate(() => this.tell({ type: "hashchange" }));
  }
}

// What the names of a browser are in a page.
function windowOf(document, report) {
  let listeners = [];
  const dispatchEvent = (event) => {
    const called = listeners.filter(([name]) => name === event.type);
    listeners = listeners.filter((one) => one[0] !== event.type || !one[2]);
    called.forEach(([, call]) => call(event));
  };
  const location = new Address(dispatchEvent);
  const started = process.cpuUsage();
  return {
    document, location, history: location, report, dispatchEvent, setTimeout, scrollTo() {},
    performance: { now: () => Object.values(process.cpuUsage(started)).reduce((one, two) => one + two) / 1000 },
    addEventListener: (name, call, { once = false } = {}) => listeners.push([name, call, once]),
    KeyboardEvent: class {
      constructor(type, { key }) {
        Object.assign(this, { type, key, preventDefault() {} });
      }
    },
  };
}

function reported(path) {
  return new Promise((done) => {
    const page = new Page(fs.readFileSync(path, "latin1"));
    const context = vm.createContext(windowOf(page, done));
    for (const [, script] of page.scripts) vm.runInContext(script, context, { filename: path });
  });
}

async function main(paths) {
  for (const path of paths) {
    const came = await Promise.race([reported(path), new Promise((done) => setTimeout(done, 60000, null).unref())]);
    console.log(JSON.stringify(came));
  }
}

process.on("unhandledRejection", (wrong) => {
  console.error(wrong);
  process.exit(1);
});
main(process.argv.slice(2));
