// Shows one node of the tree: the one whose number stands behind the # of the address, or else the root.

const byId = (id) => document.getElementById(id);
const panel = byId("node");
const cells = new Map([...document.querySelectorAll("[data-cell]")].map((cell) => [cell.dataset.cell, cell]));
const MOST_PARENTS = 100; // that are listed

// ---- The board

// What the picture shows, for who does not see it.
function labelOf({ black, white, mover }) {
  const stones = [["Black", black], ["White", white]].map(([player, cells]) => `${player} on ${cells || "no cell"}`);
  return `A board of ${rows} by ${columns}: ${stones.join("; ")}. ${colour[mover]} is to move.`;
}

// A click on a cell goes to the child that answers it, or to which the winner moves by it.
function setClicks(record, children) {
  const leads = new Map(children.map(([cell, child]) => [cell || record.chosen, child]));
  for (const [name, cell] of cells) {
    cell.classList.toggle("leads", leads.has(name));
    cell.onclick = leads.has(name) ? () => go(leads.get(name)) : null;
  }
}

// ---- What a node says

const wrongClass = (number) => (number === wrong ? "wrong" : "");
const linkMade = (number, told) => make("a", [told], { href: `#${number}`, className: wrongClass(number) });
const linkTo = (number, word = "node") => linkMade(number, `${word} ${number}`);

// The node that is wrong, or none. It is told at the top of the page, and marked where it is named.
const wrong = fault ? fault.number : -1;

function answersTold(record, opponent) {
  const threats = record.threats.map(([step, ...link]) => linkShown(record, `threat ${step}`, link));
  const which = threats.length ? "the empty cells that all threats share" : "all empty cells";
  return [
    paragraph(`To be answered are ${which}: ${record.chosen || "none"}.`),
    ...listed("Lines", "ul", record.lines.map((line) => answerMade(line, opponent))),
    ...listed("Threats", "ul", asLines(threats)),
  ];
}

// A line of answers. One with a child can be marked, and the arrow keys follow the marked one.
function answerMade(line, opponent) {
  const [cell, kind, child] = line;
  const element = make("li", lineTold[kind](line, opponent));
  if (kind === "child" && isThere(child)) {
    element.className = "line";
    element.onclick = () => pick(cell);
    element.addEventListener("focusin", () => pick(cell));
    answers.set(cell, element);
  }
  return element;
}

function parentsTold(number) {
  const parents = parentsOf(number);
  const more = parents.length - MOST_PARENTS;
  return [
    ...listed("Child of", "ul", asLines(parents.slice(0, MOST_PARENTS).map((parent) => parentTold(parent, number)))),
    ...(more > 0 ? [paragraph(`And of ${counted(more, "node")} more.`)] : []),
  ];
}

function parentTold(parent, number) {
  const { rule, mover } = headOf(parent);
  const moves = childrenOf(parent).filter(([cell, child]) => cell && child === number).map(([cell]) => cell);
  return [linkTo(parent), " by ", code(rule), moves.length ? `, after ${colour[mover]}'s ${moves.join(", ")}` : ""];
}

function told(number, record) {
  const [winner, opponent] = [colour[record.winner], colour[other[record.winner]]];
  const fills = (record.fills || []).map(([kind, named]) => fillTold[kind](named, winner, opponent));
  const marked = make("p", ["This node is wrong, as the top of the page says."], { className: "fault" });
  return [
    make("h2", [`Node ${number}${number === root ? ", the root" : ""}`]),
    ...(number === wrong ? [marked] : []),
    paragraph(`${colour[record.mover]} is to move. ${winner} is said to win, by the rule `, code(record.rule), "."),
    paragraph(...meaning[record.rule](record, winner, opponent)),
    ...(record.threats ? answersTold(record, opponent) : []),
    ...(record.fills ? listed("Fill steps", "ol", asLines(fills)) : []),
    ...parentsTold(number),
    ...(record.steps?.length ? [stepsFolded(record)] : []),
  ];
}

// In a fold, since there may be thousands.
function stepsFolded(record) {
  const steps = record.steps.map(([name, ...link]) => linkShown(record, name, link));
  return make("details", [make("summary", [counted(steps.length, "step")]), make("ol", asLines(steps), { start: 0 })]);
}

// ---- The path from the root

// The parent from which this node was gone to, or else the first one.
function parentOf(number) {
  if (!cameFrom.has(number)) cameFrom.set(number, parentsOf(number)[0]);
  return cameFrom.get(number);
}

// The nodes from the root to this one. In a wrong tree they may lead in a circle, or not from the root.
function pathTo(number) {
  const path = [number];
  while (path[0] !== root) {
    const parent = parentOf(path[0]);
    if (parent === undefined || path.includes(parent)) break;
    path.unshift(parent);
  }
  return path;
}

// What leads from a node to its child: a move, or what the rule does.
function stepTold(parent, child) {
  const { rule, mover } = headOf(parent);
  if (rule === "fill" || rule === "turned") return rule === "fill" ? "fill-in" : "turned";
  const [cell] = rule === "move" ? headOf(parent).values : childrenOf(parent).find(([, number]) => number === child);
  return `${colour[mover]} ${cell}`;
}

function pathMade(number) {
  const path = pathTo(number);
  return path.map((place, at) => {
    const told = at ? stepTold(path[at - 1], place) : place === root ? "root" : `node ${place}`;
    const link = linkMade(place, told);
    if (place === number) link.setAttribute("aria-current", "step");
    return make("li", [link]);
  });
}

// ---- Going from node to node

const way = []; // the nodes that were shown on the way to this one, which is the last
const cameFrom = new Map(); // the parent from which a node was gone to
const wentTo = new Map(); // the child that was gone to from a node
let answers = new Map(); // the lines of this node that have a child, by their cells
let picked = null; // the child to which the arrow keys go, with its cell

function go(number) {
  location.hash = number;
}

// Marks a line and its cell.
function pick(cell) {
  picked = childrenOf(way.at(-1)).find(([name, child]) => name === cell && isThere(child)) || null;
  for (const [name, line] of answers) line.classList.toggle("picked", name === cell);
  for (const [name, element] of cells) element.classList.toggle("picked", name === cell);
}

// The line that was followed before, or else the first.
function pickFirst(number, children) {
  const present = children.filter(([, child]) => isThere(child));
  const [cell] = present.find(([, child]) => child === wentTo.get(number)) || present[0] || ["none"];
  pick(cell);
}

function noteWay(number) {
  const before = way.at(-1);
  if (way.at(-2) === number) way.pop();
  else if (before !== number) way.push(number);
  if (before !== undefined && childrenOf(before).some(([, child]) => child === number)) {
    cameFrom.set(number, before);
    wentTo.set(before, number);
  }
}

function askedNumber() {
  const asked = Number.parseInt(location.hash.slice(1), 10);
  return asked >= 0 && isThere(asked) ? asked : root;
}

function show() {
  const number = askedNumber();
  const record = recordOf(number);
  const children = childrenOf(number);
  noteWay(number);
  [answers, shownLink] = [new Map(), null];
  panel.replaceChildren(...told(number, record));
  byId("path").replaceChildren(...pathMade(number));
  draw(record);
  document.querySelector("figure > svg").setAttribute("aria-label", labelOf(record));
  setClicks(record, children.filter(([, child]) => isThere(child)));
  pickFirst(number, children);
  byId("number").value = number;
  byId("to-earlier").href = `#${Math.max(number - 1, 0)}`;
  byId("to-later").href = `#${Math.min(number + 1, root)}`;
  scrollTo(0, 0);
}

function goDown() {
  if (picked) go(picked[1]);
}

function goUp() {
  const [parent] = pathTo(way.at(-1)).slice(-2, -1);
  if (parent !== undefined) go(parent);
}

// Up and down scroll the page.
const keys = { ArrowRight: goDown, ArrowLeft: goUp };

function press(event) {
  const isForPage = event.key in keys && !(event.altKey || event.ctrlKey || event.metaKey || event.shiftKey);
  if (!isForPage || event.target === byId("number")) return;
  event.preventDefault();
  keys[event.key]();
}

byId("to-root").href = `#${root}`;
if (fault) byId("fault").replaceChildren(linkTo(wrong, "Node"), ` is wrong: ${fault.words} (${fault.condition}).`);
byId("number").max = root;
byId("number").onchange = (event) => go(event.target.value);
byId("count").textContent = `of ${root + 1}`;
addEventListener("hashchange", show);
addEventListener("keydown", press);
show();
