// The board: the picture that the pages of trees have, whose cells are buttons here. Arrow keys go from cell to cell,
// and Enter or the space bar is a click.

import { colourName } from "./elements.js";
import { LETTERS } from "./position.js";

const SVG = "http://www.w3.org/2000/svg";
const STONES = ["black", "white"];
const MARKED = { "+": "wins", "-": "loses", "?": "left-open", "*": "in-carrier" };
const SIGNS = { "-": "\u2212" };
const SPOKEN = { "+": "a move here wins", "-": "a move here loses", "?": "a move here was left open",
  "*": "in the carrier" };
const LARGEST = 1.8; // how much larger than drawn a small board may be
const STEPS = { ArrowLeft: [0, -1], ArrowRight: [0, 1], ArrowUp: [-1, 0], ArrowDown: [1, 0] };

function svgElement(name, attributes) {
  const element = document.createElementNS(SVG, name);
  for (const [key, value] of Object.entries(attributes)) element.setAttribute(key, value);
  return element;
}

export class Board {
  constructor(holder, clicked) {
    Object.assign(this, { holder, clicked, cells: new Map(), size: "", focused: "a1" });
    holder.addEventListener("keydown", (event) => this.press(event));
    holder.addEventListener("focusin", (event) => this.focusOn(event.target.dataset.cell));
  }

  // Has the board of a size in the page. The server draws it once for each size.
  async setSize(rows, columns) {
    if (this.size === `${rows}/${columns}`) return;
    const answer = await fetch(`board/${rows}/${columns}`);
    const picture = new DOMParser().parseFromString(await answer.text(), "image/svg+xml").documentElement;
    Object.assign(this, { size: `${rows}/${columns}`, rows, columns, svg: document.importNode(picture, true) });
    this.make();
    this.holder.replaceChildren(this.svg);
  }

  make() {
    this.svg.style.maxWidth = `${LARGEST * Number(this.svg.getAttribute("width"))}px`;
    this.svg.setAttribute("role", "group");
    this.svg.setAttribute("aria-label", `The board, ${this.rows} by ${this.columns}. Arrow keys go from cell to cell.`);
    for (const text of this.svg.querySelectorAll("text")) text.setAttribute("aria-hidden", "true");
    this.cells = new Map([...this.svg.querySelectorAll("[data-cell]")].map((cell) => [cell.dataset.cell, cell]));
    for (const [name, cell] of this.cells) this.makeButton(name, cell);
    this.ring = svgElement("polygon", { class: "ring",
      points: this.cells.get("a1").querySelector("polygon").getAttribute("points") });
    this.svg.append(this.ring);
    if (!this.cells.has(this.focused)) this.focused = "a1";
  }

  makeButton(name, cell) {
    cell.setAttribute("role", "button");
    cell.setAttribute("tabindex", "-1");
    cell.append(svgElement("text", { class: "mark", y: "7", "aria-hidden": "true" }));
    cell.addEventListener("click", () => this.clicked(name));
  }

  // The stones of a position, the signs of some cells, and other marks by their classes; `last` is the cell of the last
  // move.
  show(position, { signs = {}, classes = {}, last = "", sides = [] } = {}) {
    for (const [name, cell] of this.cells) {
      const stone = position.stones.get(name);
      const sign = signs[name] || "";
      const held = ["cell", ...(stone ? [stone] : []), ...(sign ? [MARKED[sign]] : []), ...(classes[name] || [])];
      cell.setAttribute("class", [...held, ...(last === name ? ["last"] : [])].join(" "));
      cell.querySelector(".mark").textContent = SIGNS[sign] || sign;
      this.name(name, stone, [SPOKEN[sign], last === name && "the last move"]);
    }
    this.svg.querySelector(".chain").setAttribute("points", "");
    for (const side of this.svg.querySelectorAll(".side")) side.classList.remove("chosen");
    for (const side of sides) this.side(...side).classList.add("chosen");
    this.focusOn(this.focused);
  }

  // What a screen reader says of a cell.
  name(name, stone, more = []) {
    const said = [name, stone ? `${colourName[stone]}'s stone` : "empty", ...more.filter(Boolean)];
    this.cells.get(name).setAttribute("aria-label", said.join(", "));
  }

  // The marks that a record of a tree has put on the board are said too.
  nameByMarks() {
    const said = { carrier: "in the carrier", chosen: "chosen", "black-fill": "filled in for Black",
      "white-fill": "filled in for White" };
    for (const [name, { classList }] of this.cells) {
      const marks = Object.keys(said).filter((mark) => classList.contains(mark));
      this.name(name, STONES.find((stone) => classList.contains(stone)), marks.map((mark) => said[mark]));
    }
  }

  side(player, end) {
    return this.svg.querySelectorAll(`.side.${player}`)[end === "first" ? 0 : 1];
  }

  // One cell can be reached by the tabulator: the one that had the focus last.
  focusOn(name) {
    if (!this.cells.has(name)) return;
    this.cells.get(this.focused)?.setAttribute("tabindex", "-1");
    this.focused = name;
    this.cells.get(name).setAttribute("tabindex", "0");
    this.ring.setAttribute("transform", this.cells.get(name).getAttribute("transform"));
  }

  press(event) {
    const name = event.target.dataset?.cell;
    if (!name || event.altKey || event.ctrlKey || event.metaKey) return;
    if (event.key === "Enter" || event.key === " ") this.clicked(name);
    else if (event.key in STEPS) this.step(name, ...STEPS[event.key]);
    else return;
    event.preventDefault();
  }

  step(name, down, right) {
    const column = LETTERS.indexOf(name[0]) + right;
    const next = `${LETTERS[column]}${Number(name.slice(1)) + down}`;
    this.cells.get(next)?.focus();
  }
}
