// A pattern: cells as a carrier, two ends and an owner, and whether it is safe (`hx template`).

import { byId, colourName, counted, other } from "./elements.js";

const SIDES = { black: { first: "the top", last: "the bottom" }, white: { first: "the left", last: "the right" } };
const MOST_CELLS = 12;

export class Pattern {
  constructor(page) {
    Object.assign(this, { page, carrier: new Set(), ends: [], owner: "black", kind: "full", said: "" });
    byId("owner").onchange = ({ target }) => this.change(() => { this.owner = target.value; this.dropEnds(); });
    byId("kind").onchange = ({ target }) => this.change(() => { this.kind = target.value; });
    for (const side of ["first", "last"]) byId(`end-${side}`).onchange = () => this.change(() => this.toggleEnd(side));
    byId("try-pattern").onclick = () => this.ask();
    byId("leave-pattern").onclick = () => this.page.enter(null);
  }

  // A template that was pasted.
  take({ carrier, ends, owner, kind }) {
    Object.assign(this, { carrier: new Set(carrier), ends, owner, kind });
  }

  get position() {
    return this.page.shown.position;
  }

  change(how) {
    how();
    this.page.forget();
    this.page.render();
  }

  click(cell) {
    const tool = document.querySelector("[name=pattern-tool]:checked").value;
    this.change(() => (tool === "end" ? this.toggleEnd(cell) : this.toggleCell(cell)));
  }

  toggleCell(cell) {
    this.said = this.position.isEmpty(cell) ? "" : `${cell} has a stone; a pattern's cells are empty.`;
    if (this.carrier.delete(cell) || this.said) return;
    this.carrier.add(cell);
    this.ends = this.ends.filter((end) => end !== cell);
  }

  // A third end takes the place of the first.
  toggleEnd(end) {
    const isOther = this.position.stones.get(end) === other[this.owner];
    const [own, its] = [this.owner, other[this.owner]].map((player) => colourName[player]);
    this.said = isOther ? `${end} is a stone of ${its}'s; an end is ${own}'s, or empty.` : "";
    if (this.ends.includes(end)) this.ends = this.ends.filter((one) => one !== end);
    else if (!isOther) this.ends = [...this.ends, end].slice(-2);
    this.carrier.delete(end);
  }

  dropEnds() {
    this.ends = this.ends.filter((end) => this.position.stones.get(end) !== other[this.owner]);
  }

  asked() {
    const { rows, columns, black, white } = this.position.asked();
    return { rows, columns, black, white, owner: this.owner, kind: this.kind,
      ends: this.ends, carrier: [...this.carrier] };
  }

  async ask() {
    if (this.ends.length !== 2) {
      this.change(() => { this.said = "Mark two ends first: stones of the owner's, empty cells, or his sides."; });
      return;
    }
    const told = await this.page.ask({ question: "pattern", ...this.asked() });
    if (told.phase === "done") this.page.say(this.answer(told));
  }

  answer({ safe, cells }) {
    const [one, two] = this.ends.map((end) => this.endTold(end));
    const [owner, opponent] = [colourName[this.owner], colourName[other[this.owner]]];
    const first = this.kind === "full" ? `though ${opponent} moves first` : `where ${owner} moves first`;
    if (safe === "unknown")
      return `That was left open: ${cells} cells are marked, and at most ${MOST_CELLS} are tried.`;
    const can = safe === "yes" ? `Yes: ${owner} can` : `No: ${owner} cannot`;
    return `${can} join ${one} with ${two} by these ${counted(cells, "cell")}, ${first}.`;
  }

  endTold(end) {
    return SIDES[this.owner][end] || end;
  }

  marks() {
    const classes = Object.fromEntries(this.ends.map((end) => [end, ["chosen"]]));
    for (const cell of this.carrier) classes[cell] = ["carrier"];
    const sides = this.ends.filter((end) => end in SIDES.black).map((end) => [this.owner, end]);
    return { classes, sides, signs: Object.fromEntries([...this.carrier].map((cell) => [cell, "*"])) };
  }

  shown() {
    byId("owner").value = this.owner;
    byId("kind").value = this.kind;
    for (const side of ["first", "last"]) {
      byId(`end-${side}`).checked = this.ends.includes(side);
      byId(`${side}-name`).textContent = `${SIDES[this.owner][side]} is an end`;
    }
    const cells = this.ends.filter((end) => !(end in SIDES.black));
    cells.forEach((end) => this.page.board.name(end, this.position.stones.get(end), ["an end"]));
    const ends = this.ends.map((end) => this.endTold(end)).join(" and ");
    byId("pattern-told").textContent = this.said
      || `${counted(this.carrier.size, "cell")} marked. Ends: ${ends || "none"}.`;
  }

  leave() {}
}
