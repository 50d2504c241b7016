// What is told of each node: the same records as those of records.py, made of the node's lines.

const SIDES = { black: ["the top", "the bottom"], white: ["the left", "the right"] };

function endTold(vertex, player) {
  return vertex >= FIRST ? SIDES[player][vertex - FIRST] : cellName(vertex);
}

// What a link joins and its carrier, or nothing where a step gave none.
function linkTold(link, player) {
  if (!link) return ["", ""];
  const [one, two] = link.ends.map((end) => endTold(end, player));
  return [`${link.isFull ? "Full" : "Semi"}, ${one} to ${two}`, namesOf(link.carrier)];
}

function stepsTold(steps, links, player) {
  return steps.map((step, number) => [step.join(" "), ...linkTold(links[number], player)]);
}

const ofRule = {
  chain: (head) => ({ chain: new Graph(head, head.winner).chain().map(cellName).join(" ") }),
  move: ({ values: [cell, child] }) => ({ chosen: cell, child: Number(child) }),
  turned: ({ values: [child] }) => ({ child: Number(child) }),

  links: (head, steps) => {
    const links = linksOf(new Graph(head, head.winner), steps);
    const last = links.at(-1);
    return { carrier: last ? namesOf(last.carrier) : "", steps: stepsTold(steps, links, head.winner) };
  },

  // The carrier is that of all threats together, and the chosen cells are those that all of them share.
  all: (head, entries) => {
    const graph = new Graph(head, head.winner);
    const [ofSteps, ofThreats] = head.values.map(Number);
    const steps = entries.slice(0, ofSteps);
    const links = linksOf(graph, steps);
    const threats = entries.slice(ofSteps, ofSteps + ofThreats).map(([, step]) => [Number(step), links[step]]);
    const carriers = threats.filter(([, link]) => link).map(([, link]) => link.carrier);
    return {
      carrier: namesOf(carriers.reduce((some, carrier) => some | carrier, 0n)),
      chosen: namesOf(carriers.reduce((shared, carrier) => shared & carrier, graph.empty)),
      steps: stepsTold(steps, links, head.winner),
      threats: threats.map(([step, link]) => [step, ...linkTold(link, head.winner)]),
      lines: entries.slice(ofSteps + ofThreats).map(
        ([, cell, kind, ...named]) => [cell, kind, kind === "child" ? Number(named[0]) : named.join(" ")]),
    };
  },

  // Each player has the cells that the fill steps give him.
  fill: ({ winner, values }, fills, number) => {
    const given = (isOther) => namesOf(fills.filter(([kind]) => (kind === "other") === isOther)
      .flatMap(([, ...cells]) => cells).reduce((set, cell) => set | only[indexOf.get(cell)], 0n));
    const last = afterFills(number);
    return {
      [`${other[winner]}-fill`]: given(true), [`${winner}-fill`]: given(false),
      chosen: last.rule === "move" ? last.values[0] : "", child: Number(values[1]),
      fills: fills.map(([kind, ...cells]) => [kind, cells.join(" ")]),
    };
  },
};

function recordOf(number) {
  const head = headOf(number);
  return {
    black: namesOf(head.black), white: namesOf(head.white), mover: head.mover, winner: head.winner, rule: head.rule,
    carrier: "", chosen: "", ...ofRule[head.rule](head, entriesOf(number), number),
  };
}
