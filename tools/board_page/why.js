// Why somebody wins: the tree that was accepted, on the same board. A click on a cell goes down its line, and the
// winner's answer is played at once; of a cell that no line answers it is said why.

import { button, colourName, fill, make, other } from "./elements.js";
import { moveTold } from "./position.js";
import { readTree } from "./reader.js";

// Why a cell that was filled in needs no line.
const whyFilled = {
  other: (cell, winner, opponent) => `${cell} was given to ${opponent}: ${winner} wins even so.`,
  dead: (cell, winner) => `${cell} is dead for ${winner}: whoever takes it, nothing changes.`,
  pair: (cell, winner, opponent, partner) =>
    `${cell} and ${partner} are a captured pair: after ${cell} ${winner} takes ${partner}.`,
};

export class Why {
  constructor(page, tree, { wide, edge }) {
    document.getElementById("tree").textContent = tree;
    Object.assign(this, { page, start: page.position, said: "", marked: {} });
    const linkTo = (number, word) => this.linkTo(number, word);
    const hooks = { cells: page.board.cells, cellWide: wide, cellEdge: edge, linkTo };
    this.readers = [readTree(hooks, false), readTree(hooks, true)];
    this.path = [this.arrived(this.readers[0].root, false, this.start, "Start", new Map())];
  }

  get here() {
    return this.path.at(-1);
  }

  // Where a node leads by `fill` and `turned`, with what was filled in on the way.
  arrived(number, isTurned, position, told, filledBefore) {
    const filled = new Map(filledBefore);
    for (;;) {
      const reader = this.readers[Number(isTurned)];
      const { rule, winner, values } = reader.headOf(number);
      if (rule !== "fill" && rule !== "turned") return { number, reader, isTurned, position, told, filled, last: "" };
      if (rule === "turned") isTurned = !isTurned;
      else this.noteFills(reader, reader.recordOf(number), winner, filled);
      number = Number(values.at(-1));
    }
  }

  noteFills(reader, { fills }, winner, filled) {
    const players = [colourName[winner], colourName[other[winner]]];
    for (const [kind, named] of fills) {
      const told = reader.fillTold[kind](named, ...players);
      const cells = named.split(" ");
      const why = (cell, place) => whyFilled[kind](cell, ...players, cells[1 - place]);
      cells.forEach((cell, place) => filled.set(cell, { told, why: why(cell, place) }));
    }
  }

  // ---- Going down

  click(cell) {
    const record = this.record();
    this.said = this.page.position.isEmpty(cell) ? this.clicked(record, cell) : `${cell} has a stone.`;
    this.page.render();
  }

  // What is said of a click. Where it is a move of the tree's, the board goes on.
  clicked(record, cell) {
    if (this.here.filled.has(cell)) return this.here.filled.get(cell).why;
    return this.byRule[record.rule].call(this, record, cell);
  }

  byRule = {
    chain: (record) => `${colourName[record.winner]} has a chain.`,
    move: (record, cell) => this.atMove(record, cell),
    links: (record, cell) => this.inLink(record, cell),
    all: (record, cell) => this.ofAll(record, cell),
  };

  atMove(record, cell) {
    if (cell !== record.chosen) return `${colourName[record.winner]}'s move in this tree is ${record.chosen}.`;
    this.goTo(record.child, [[record.winner, record.chosen]]);
    return `${colourName[record.winner]} plays ${record.chosen}.`;
  }

  ofAll(record, cell) {
    const [, kind, child] = record.lines.find(([answered]) => answered === cell) || [];
    if (kind === "child") return this.playLine(record, cell, child);
    const opponent = colourName[record.mover];
    if (kind) return `Dominated: ${this.here.reader.lineTold[kind]([cell, kind, child], opponent)}.`;
    return this.byThreat(record, cell);
  }

  // The opponent's move, and the winner's answer where the line's child has one.
  playLine(record, cell, child) {
    const stones = [[record.mover, cell]];
    const next = this.arrived(child, this.here.isTurned, this.here.position, "", this.here.filled);
    const { rule, chosen, child: after } = next.reader.recordOf(next.number);
    if (rule !== "move") {
      this.goTo(child, stones);
      return `${moveTold(record.mover, cell)} is played.`;
    }
    this.goTo(after, [...stones, [record.winner, chosen]], next);
    return `${moveTold(record.mover, cell)} is answered by ${chosen}.`;
  }

  goTo(number, stones, { isTurned, filled } = this.here) {
    const played = (before, [colour, cell]) => before.put(cell, colour).withMover(other[colour]);
    const position = stones.reduce(played, this.here.position);
    const told = stones.map(([colour, cell]) => moveTold(colour, cell)).join(", ");
    this.path.push({ ...this.arrived(number, isTurned, position, told, filled), last: stones.at(-1)[1] });
  }

  byThreat(record, cell) {
    const stands = record.threats.find(([, , carrier]) => !carrier.split(" ").includes(cell));
    if (!stands) return `${cell} is not empty in this node.`;
    this.marked = { carrier: stands[2], chosen: "" };
    const isOutside = !record.carrier.split(" ").includes(cell);
    const which = isOutside ? `${cell} is outside all threats` : `A threat stands after ${cell}`;
    const [step, link, cells] = stands;
    return `${which}: ${colourName[record.winner]} still has that of step ${step}, ${link}, on ${cells || "no cell"}.`;
  }

  inLink(record, cell) {
    const winner = colourName[record.winner];
    if (!record.carrier.split(" ").includes(cell)) return `${cell} is outside ${winner}'s link, which stands.`;
    const kept = this.here.reader.answerIn(this.here.number, cell);
    if (!kept) return `${cell} is a cell of ${winner}'s link.`;
    this.marked = { carrier: kept.carrier, chosen: kept.answer };
    return `After ${cell} ${winner} answers ${kept.answer}: then a link between his sides stands on ${kept.carrier}.`;
  }

  // A node in the text of the page: it is gone to by the move that leads there.
  linkTo(number, word = "node") {
    return button(`${word} ${number}`, () => {
      const record = this.record();
      const [cell] = (record.lines || []).find(([, kind, child]) => kind === "child" && child === number)
        || [record.chosen];
      this.click(cell);
    }, { className: "link" });
  }

  back(at) {
    this.path.length = at + 1;
    this.said = "";
    this.page.render();
  }

  get hint() {
    return "A click on a cell goes down its line, or says why none answers it.";
  }

  canUndo() {
    return this.path.length > 1;
  }

  undo() {
    if (this.canUndo()) this.back(this.path.length - 2);
  }

  // ---- What is shown

  get position() {
    return this.here.position;
  }

  // What the tree says of this node. The stones are those that were played, and the others of the node were filled in.
  record() {
    const { reader, number, position } = this.here;
    const record = reader.recordOf(number);
    const filledIn = (player) => record[player].split(" ").filter((cell) => cell && position.isEmpty(cell)).join(" ");
    const fills = { "black-fill": filledIn("black"), "white-fill": filledIn("white") };
    return { ...record, ...fills, black: position.of("black").join(" "), white: position.of("white").join(" ") };
  }

  marks() {
    return { last: this.here.last };
  }

  shown() {
    const record = { ...this.record(), ...this.marked };
    this.marked = {};
    this.here.reader.draw(record);
    this.page.board.nameByMarks();
    document.getElementById("panel").dataset.node = this.here.number;
    fill("panel", ...this.told());
  }

  told() {
    const { reader, number } = this.here;
    const record = this.record();
    const [winner, opponent] = [colourName[record.winner], colourName[other[record.winner]]];
    const meaning = reader.meaning[record.rule](record, winner, opponent);
    return [
      make("h2", [`Why ${winner} wins`]),
      this.pathTold(),
      make("p", [this.said], { id: "why-said", role: "status" }),
      make("p", [`${colourName[record.mover]} is to move. The tree's rule here is `,
        make("code", [record.rule]), ". ", ...meaning]),
      ...this.fillsTold(),
      ...this.answersTold(record, opponent),
      ...this.stepsTold(record, number),
      make("p", [button("Back to the position", () => this.page.enter(null))], { className: "row" }),
    ];
  }

  pathTold() {
    const steps = this.path.map(({ told }, at) => make("li", [button(told, () => this.back(at))]));
    steps.at(-1).firstChild.setAttribute("aria-current", "step");
    return make("ol", steps, { className: "path", ariaLabel: "The path from the root" });
  }

  fillsTold() {
    const lines = [...new Set([...this.here.filled.values()].map(({ told }) => told))];
    return lines.length ? [make("h3", ["Filled in"]), make("ul", lines.map((line) => make("li", [line])))] : [];
  }

  answersTold(record, opponent) {
    if (!record.threats) return [];
    const { reader } = this.here;
    const threats = record.threats.map(([step, ...link]) =>
      make("li", reader.linkShown(record, `threat ${step}`, link)));
    const lines = record.lines.map((line) => make("li", reader.lineTold[line[1]](line, opponent)));
    return [
      ...(lines.length ? [make("h3", ["Answers"]), make("ul", lines)] : []),
      ...(threats.length ? [make("h3", ["Threats"]), make("ul", threats)] : []),
    ];
  }

  stepsTold(record, number) {
    if (!record.steps?.length) return [];
    const steps = record.steps.map(([name, ...link]) => make("li", this.here.reader.linkShown(record, name, link)));
    return [make("details", [make("summary", [`The ${steps.length} steps of node ${number}`]),
      make("ol", steps, { start: 0 })])];
  }

  leave() {
    document.getElementById("tree").textContent = "";
    fill("panel");
  }
}
