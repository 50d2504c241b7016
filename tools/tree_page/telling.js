// What a page says of a node, and how a record marks its board. A page has `cells`, the elements of the board's cells
// by their names, and `linkTo`, which makes a link to the node with a number, behind the word `node` or another one.

const colour = { black: "Black", white: "White" };
const MARKS = ["black", "white", "carrier", "chosen", "black-fill", "white-fill"];

const isThere = (number) => number <= root;
const counted = (count, word) => `${count} ${word}${count === 1 ? "" : "s"}`;

// ---- The board

function draw(record) {
  const named = MARKS.map((mark) => [mark, new Set((record[mark] || "").split(" "))]);
  for (const [name, cell] of cells) named.forEach(([mark, those]) => cell.classList.toggle(mark, those.has(name)));
  document.querySelector(".chain").setAttribute("points", pointsOf(record).join(" "));
}

// The corners of the line along a chain, from side to side.
function pointsOf({ chain, winner }) {
  if (!chain) return [];
  const middles = chain.split(" ").map((name) => cells.get(name).getAttribute("transform")
    .match(/[\d.]+/g).map(Number));
  const [x, y] = winner === "black" ? [0, cellEdge] : [cellWide / 2, 0];
  const [[left, top], [right, bottom]] = [middles[0], middles.at(-1)];
  return [[left - x, top - y], ...middles, [right + x, bottom + y]]
    .map((point) => point.map((at) => at.toFixed(1)).join());
}

// ---- Elements

// An element that holds texts and elements.
function make(name, held, properties = {}) {
  const element = Object.assign(document.createElement(name), properties);
  element.append(...held);
  return element;
}

const paragraph = (...held) => make("p", held);
const code = (word) => make("code", [word]);

// A heading, and a list of what is held under it.
function listed(title, name, lines, properties = {}) {
  return [make("h2", [title]), lines.length ? make(name, lines, properties) : paragraph("None.")];
}

const asLines = (items) => items.map((item) => make("li", item));

// A child: its number, its rule and what comes there.
function childTold(number) {
  if (!isThere(number)) return [`node ${number}, which is missing`];
  const head = headOf(number);
  return [linkTo(number), " by ", code(head.rule), `: ${comesNow[head.rule](head, colour[head.winner], number)}`];
}

// The same in a sentence: this child shows something.
function childShows(number, what) {
  if (!isThere(number)) return [`Node ${number}, which is missing, is to show that ${what}.`];
  const head = headOf(number);
  const comes = comesNow[head.rule](head, colour[head.winner], number);
  return [linkTo(number, "Node"), ` shows that ${what}, by `, code(head.rule), `: ${comes}.`];
}

const comesNow = {
  chain: (head, winner) => `${winner} has a chain`,
  links: (head, winner) => `${winner} has a link between his sides`,
  move: ({ values: [cell] }, winner) => `${winner} moves to ${cell}`,
  all: ({ values: [, threats, lines] }) =>
    `${counted(Number(threats), "threat")} and ${counted(Number(lines), "line")}`,
  turned: ({ values: [child] }) => `node ${child} has it turned by 180 degrees`,
  fill: (head, winner, number) => {
    const last = afterFills(number);
    return last.rule === "fill" ? `${winner} fills cells`
      : `${winner} fills cells, then ${comesNow[last.rule](last, winner)}`;
  },
};

// The link that a step gives. A click marks its carrier on the board, and a second one what was marked before.
let shownLink = null;

function linkShown(record, name, [told, carrier]) {
  if (!told) return [code(name), ": no link"];
  const button = make("button", [code(name), `: ${told}, on ${carrier || "no cell"}`], { type: "button" });
  button.onclick = () => {
    const isNew = shownLink !== button;
    if (shownLink) shownLink.classList.remove("shown");
    button.classList.toggle("shown", isNew);
    shownLink = isNew ? button : null;
    draw(isNew ? { ...record, carrier, chosen: "" } : record);
  };
  return [button];
}

// ---- What a node says

const meaning = {
  chain: (record, winner) => [`${winner} has a chain.`],
  links: (record, winner) => [
    `The last step makes a link between ${winner}'s two sides, on ${record.carrier || "no cell"}.`],
  move: (record, winner) => [`${winner} moves to ${record.chosen}. `, ...childShows(record.child, "this wins")],
  all: (record, winner, opponent) => [
    `After each move of ${opponent}'s, ${winner} wins: by a threat that the move leaves whole, or by the move's line.`],
  fill: (record, winner) => [`${winner} fills cells. `, ...childShows(record.child, "this wins")],
  turned: (record, winner) => childShows(record.child, `${winner} wins this position turned by 180 degrees`),
};

const lineTold = {
  child: ([cell, , child]) => [`${cell}: `, ...childTold(child)],
  dead: ([cell, , better], opponent) => [
    `${cell}: ${opponent} does no worse by ${better}, after which ${cell} is dead`],
  pair: ([cell, , named], opponent) => {
    const [better, partner] = named.split(" ");
    return [`${cell}: ${opponent} does no worse by ${better}, after which ${cell} and ${partner} are a captured pair`];
  },
};

const fillTold = {
  other: (named, winner, opponent) => [`${named}: a stone of ${opponent}'s`],
  dead: (named, winner) => [`${named}: dead for ${winner}`],
  pair: (named, winner) => [`${named.replace(" ", " and ")}: a captured pair of ${winner}'s`],
};
