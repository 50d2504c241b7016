// What the pages of trees have, as one function. It reads the tree whose text stands in the element `tree` of the page,
// tells what its nodes say, and marks a board. `isTurned` reads it as it stands behind a node by `turned`: with every
// cell turned by 180 degrees.

export function readTree({ cells, cellWide, cellEdge, linkTo }, isTurned) {
// HERE

  if (isTurned) {
    const corner = WIDTH * (rows - 1) + columns - 1;
    const ends = { first: "last", last: "first" };
    const turnedWord = (word) => ends[word] || (indexOf.has(word) ? cellName(corner - indexOf.get(word)) : word);
    const turnedSet = (set) => cellsOf(set).reduce((turned, cell) => turned | only[corner - cell], 0n);
    const [head, entries] = [headOf, entriesOf];
    headOf = (number) => {
      const { black, white, values, ...more } = head(number);
      return { ...more, black: turnedSet(black), white: turnedSet(white), values: values.map(turnedWord) };
    };
    entriesOf = (number) => entries(number).map((words) => words.map(turnedWord));
  }

  return {
    root, headOf, entriesOf, recordOf, draw, make, listed, asLines, linkShown, meaning, lineTold, fillTold,
    other, colour,
    // The winner's answer to a cell of the link that these steps make, and the carrier of what stands then; or nothing.
    answerIn: (number, cell) => {
      const head = headOf(number);
      const graph = new Graph(head, head.winner);
      const steps = entriesOf(number).filter(([kind]) => ["base", "stone", "cell", "or"].includes(kind));
      return keptIn(steps, linksOf(graph, steps), steps.length - 1, only[indexOf.get(cell)]);
    },
  };

  // In an And over a stone the part that the cell is in; in an Or the first part without it, which is an And over a
  // cell.
  function keptIn(steps, links, place, cell) {
    const [kind, ...parts] = steps[place];
    if (kind === "stone") {
      return parts.filter((part) => links[part].carrier & cell).map((part) => keptIn(steps, links, part, cell))[0];
    }
    if (kind !== "or") return undefined;
    const kept = parts.find((part) => !(links[part].carrier & cell));
    const [, ...halves] = steps[kept];
    const rest = halves.reduce((set, half) => set & ~links[half].carrier, links[kept].carrier);
    return { answer: namesOf(rest), carrier: namesOf(links[kept].carrier) };
  }
}
