// The text of the tree, and its nodes, each read when it is asked for. The text was read as a whole before this page
// was made, so every line is of the grammar; but a tree may be wrong, and a child missing.

const text = document.getElementById("tree").textContent;
const BEGIN = "\nnode ";

// Where each node begins in the text.
function findStarts() {
  const found = [];
  for (let at = text.indexOf(BEGIN); at >= 0; at = text.indexOf(BEGIN, at + 1)) found.push(at + 1);
  return found;
}

const starts = findStarts();
const root = starts.length - 1;
const sizeWords = text.slice(0, starts[0]).split("\n")[1].split(" ");
const [rows, columns] = sizeWords.slice(1).map(Number);

// The first line of a node.
function headOf(number) {
  const line = text.slice(starts[number], text.indexOf("\n", starts[number]));
  const [, black, white, mover, winner, rule, ...values] = line.split(" ");
  return { black: BigInt(`0x${black}`), white: BigInt(`0x${white}`), mover, winner, rule, values };
}

// The lines after the first one, each as its words.
function entriesOf(number) {
  const end = number < root ? starts[number + 1] : text.lastIndexOf("\nend ") + 1;
  return text.slice(starts[number], end - 1).split("\n").slice(1).map((line) => line.split(" "));
}

// The children that a node names: each with the cell of its line, or with none where the node has one child alone.
function childrenOf(number) {
  const { rule, values } = headOf(number);
  if (rule === "move" || rule === "fill" || rule === "turned") return [["", Number(values.at(-1))]];
  if (rule !== "all") return [];
  return entriesOf(number).filter(([kind, , how]) => kind === "line" && how === "child")
    .map(([, cell, , child]) => [cell, Number(child)]);
}

// The node in whose lines a place of the text is.
function numberAt(place) {
  let [low, high] = [0, root];
  while (low < high) {
    const middle = Math.ceil((low + high) / 2);
    if (starts[middle] <= place) low = middle;
    else high = middle - 1;
  }
  return low;
}

const NAMES_CHILD = /^(?:line \w+ child|node .* (?:move \w+|fill \d+|turned))$/;

// The nodes that name this one as a child. A line that does so ends with its number.
function parentsOf(number) {
  const found = new Set();
  const end = ` ${number}\n`;
  for (let at = text.indexOf(end); at >= 0; at = text.indexOf(end, at + 1)) {
    const begin = text.lastIndexOf("\n", at) + 1;
    if (NAMES_CHILD.test(text.slice(begin, at))) found.add(numberAt(begin));
  }
  return [...found];
}

// The last node on the way down from this one, from child to child by `fill`. A child stands before its node; where it
// does not the tree is wrong, and the way ends.
function afterFills(number) {
  let head = headOf(number);
  while (head.rule === "fill" && Number(head.values[1]) < number) {
    number = Number(head.values[1]);
    head = headOf(number);
  }
  return head;
}
