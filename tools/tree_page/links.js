// Boards, what is joined on them, and what link a step gives, by docs/definitions.md (Links). A set of cells is a
// number whose bits are those of a mask. A vertex is a cell's index, or one of the winner's sides.

const WIDTH = 11;
const [FIRST, LAST] = [121, 122];
const only = Array.from({ length: LAST + 1 }, (_, vertex) => 1n << BigInt(vertex));
const cellName = (cell) => "abcdefghijk"[cell % WIDTH] + (Math.floor(cell / WIDTH) + 1);
const allCells = Array.from({ length: rows * columns },
  (_, place) => WIDTH * Math.floor(place / columns) + place % columns);
const indexOf = new Map([...allCells.map((cell) => [cellName(cell), cell]), ["first", FIRST], ["last", LAST]]);

// The cells of a set, in cell order.
const cellsOf = (set) => allCells.filter((cell) => set & only[cell]);
const namesOf = (set) => cellsOf(set).map(cellName).join(" ");

// What touches each vertex of a player's: the cells around a cell, in cell order, and then his sides.
function touchingFor(player) {
  const touching = allCells.map((cell) => [cell, touchedBy(cell, player)]);
  const besides = (side) => allCells.filter((cell) => sidesOf(cell, player).includes(side));
  return new Map([...touching, [FIRST, besides(FIRST)], [LAST, besides(LAST)]]);
}

const AROUND = [[-1, 0], [-1, 1], [0, -1], [0, 1], [1, -1], [1, 0]];

function touchedBy(cell, player) {
  const [row, column] = [Math.floor(cell / WIDTH), cell % WIDTH];
  const around = AROUND.map(([down, right]) => [row + down, column + right])
    .filter(([r, c]) => r >= 0 && r < rows && c >= 0 && c < columns).map(([r, c]) => WIDTH * r + c);
  return [...around, ...sidesOf(cell, player)];
}

function sidesOf(cell, player) {
  const [place, last] = player === "black" ? [Math.floor(cell / WIDTH), rows - 1] : [cell % WIDTH, columns - 1];
  return [...(place === 0 ? [FIRST] : []), ...(place === last ? [LAST] : [])];
}

const touching = { black: touchingFor("black"), white: touchingFor("white") };
const other = { black: "white", white: "black" };

// A player's graph on the board of a node's first line.
class Graph {
  constructor(head, player) {
    this.touching = touching[player];
    this.stones = head[player];
    this.own = this.stones | only[FIRST] | only[LAST];
    this.empty = allCells.reduce((set, cell) => set | only[cell], 0n) & ~(head.black | head.white);
    this.joined = new Map();
  }

  isOpen(vertex) {
    return (this.own | this.empty) & only[vertex];
  }

  // All vertices that are joined with this one. A way goes on from its own ones alone.
  joinedWith(start) {
    if (!this.joined.has(start)) this.joined.set(start, this.reachedFrom(start));
    return this.joined.get(start);
  }

  reachedFrom(start) {
    const reached = new Set([start]);
    const toLeave = [start];
    while (toLeave.length) {
      const found = this.touching.get(toLeave.pop()).filter((vertex) => !reached.has(vertex));
      found.forEach((vertex) => reached.add(vertex));
      toLeave.push(...found.filter((vertex) => this.own & only[vertex]));
    }
    return reached;
  }

  // The cells of a shortest chain, from the first side to the last one, or none.
  chain() {
    const before = new Map();
    const reached = [FIRST];
    for (const vertex of reached) { // which grows
      if (this.touching.get(vertex).includes(LAST)) return wayTo(vertex, before);
      const found = this.touching.get(vertex).filter((cell) => !before.has(cell) && this.stones & only[cell]);
      found.forEach((cell) => before.set(cell, vertex));
      reached.push(...found);
    }
    return [];
  }
}

function wayTo(cell, before) {
  return before.has(cell) ? [...wayTo(before.get(cell), before), cell] : [];
}

// ---- Links. Each has whether it is Full, its two ends, the lesser first, and its carrier.

function isLink(graph, { ends, carrier }) {
  return ends[0] !== ends[1] && ends.every((end) => graph.isOpen(end) && !(graph.empty & carrier & only[end]));
}

function baseOf(graph, words) {
  const ends = words.map((word) => indexOf.get(word)).sort((one, two) => one - two);
  return graph.joinedWith(ends[0]).has(ends[1]) ? { isFull: true, ends, carrier: 0n } : null;
}

function andOf(graph, kind, [one, two]) {
  const shared = one.ends.filter((end) => two.ends.includes(end));
  if (!one.isFull || !two.isFull || shared.length !== 1 || one.carrier & two.carrier) return null;
  const ends = [...one.ends, ...two.ends].filter((end) => end !== shared[0]).sort((one, two) => one - two);
  const between = only[shared[0]];
  const carrier = one.carrier | two.carrier;
  if (kind === "stone") return graph.own & between ? { isFull: true, ends, carrier } : null;
  return graph.empty & ~carrier & between ? { isFull: false, ends, carrier: carrier | between } : null;
}

function orOf(parts) {
  const [first] = parts;
  const isRight = parts.length > 1 && parts.every((part) => !part.isFull && `${part.ends}` === `${first.ends}`);
  if (!isRight || parts.reduce((all, part) => all & part.carrier, first.carrier)) return null;
  return { isFull: true, ends: first.ends, carrier: parts.reduce((some, part) => some | part.carrier, 0n) };
}

// The link of a step after the links of those before it, or none.
function linkOf(graph, links, [kind, ...values]) {
  const parts = kind === "base" ? [] : values.map((number) => links[number]);
  if (parts.some((part) => !part)) return null;
  const link = kind === "base" ? baseOf(graph, values) : kind === "or" ? orOf(parts) : andOf(graph, kind, parts);
  return link && isLink(graph, link) ? link : null;
}

// The link of each step, or none from the first step on that gives none.
function linksOf(graph, steps) {
  const links = [];
  let isRight = true;
  for (const step of steps) {
    links.push(isRight ? linkOf(graph, links, step) : null);
    isRight = links.at(-1) !== null;
  }
  return links;
}
