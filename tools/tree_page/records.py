"""What is told of the nodes of a tree, as the text says it: cells by their names, a set of cells as one text.

The text is read by checkers/check.py, so that there is no third reader of its grammar, and what link a step gives is
taken from there. A picture shows the record of a root. The page makes the same records of its own, in tree.js and
links.js; `.ci/page` holds them against these."""
import io
import pathlib
import sys

sys.path.insert(0, str(pathlib.Path(__file__).resolve().parents[2] / "checkers"))
import check  # noqa: E402

LETTERS = "abcdefghijk"
SIDES = {"black": ("the top", "the bottom"), "white": ("the left", "the right")}


class NoTree(Exception):
    """The bytes are not the text of a tree."""


def nodes_of(content):
    """The nodes of a text, one after the other, each as the checker reads it."""
    lines = check.Lines(io.BytesIO(content))
    try:
        rules, size = check.read_preamble(lines)
        count = 0
        while (words := lines.next_words())[0] != "end" or not count:
            node = check.read_node(lines, words, rules, size)
            count += 1
            yield node
        check.require(words == ["end", str(count), node[0].winner])
        lines.end()
    except (check.Wrong, check.TooLong):
        raise NoTree(f"line {lines.number} is not of the text of a tree") from None


def read_nodes(content):
    return list(nodes_of(content))


def name(cell):
    row, column = divmod(cell, check.WIDTH)
    return f"{LETTERS[column]}{row + 1}"


def cell_of(word):
    return check.WIDTH * (int(word[1:]) - 1) + LETTERS.index(word[0])


def names(cells):
    """The names of a set's cells, in cell order."""
    return " ".join(map(name, check.members_of(cells)))


def names_listed(cells):
    return " ".join(map(name, cells))


def end_told(vertex, player):
    return SIDES[player][vertex - check.FIRST] if vertex in (check.FIRST, check.LAST) else name(vertex)


def links_of(heading, steps):
    """The link of each step, or none from the first step on that gives none."""
    graph = check.Graph(heading.board, heading.winner)
    links = []
    for kind, values in steps:
        link = check.link_of(graph, links, kind, values)
        if link is None:
            break
        links.append(link)
    return links + [None] * (len(steps) - len(links))


def link_told(link, player):
    """What a link joins and its carrier, or nothing where a step gave none."""
    if link is None:
        return ["", ""]
    one, other = (end_told(end, player) for end in sorted(link.ends))
    return [f"{'Full' if link.is_full else 'Semi'}, {one} to {other}", names(link.carrier)]


def step_spelled(kind, values):
    """The line of a step."""
    words = map(vertex_spelled, values) if kind == "base" else map(str, values)
    return " ".join([kind, *words])


def vertex_spelled(vertex):
    return {check.FIRST: "first", check.LAST: "last"}.get(vertex) or name(vertex)


def steps_told(heading, steps, links):
    return [[step_spelled(*step), *link_told(link, heading.winner)] for step, link in zip(steps, links)]


def record_of(nodes, number):
    """What is told of the node with this number. The chosen cells are those on which its rule turns."""
    heading, rule, values, entries = nodes[number]
    return {"black": names(heading.board.black), "white": names(heading.board.white), "mover": heading.mover,
            "winner": heading.winner, "rule": rule, "carrier": "", "chosen": "",
            **OF_RULE[rule](heading, values, *entries),
            **({"chosen": move_after(nodes, number)} if rule == "fill" else {})}


def move_after(nodes, number):
    """The move to which the fill steps of a node lead, from child to child by `fill`, or nothing.

    A child stands before its node; where it does not the tree is wrong, and the way ends."""
    _, rule, values, _ = nodes[number]
    while rule == "fill" and values[-1] < number:
        number = values[-1]
        _, rule, values, _ = nodes[number]
    return name(values[0]) if rule == "move" else ""


def chain_of(board, player):
    """The cells of a shortest chain, from the player's first side to his last one, or none."""
    touching, own = board.size.touching[player], board.of(player)
    before, reached = {}, [check.FIRST]
    for vertex in reached:  # which grows
        if check.has(touching[vertex], check.LAST):
            return way_to(vertex, before)
        found = [cell for cell in check.members_of(touching[vertex] & own) if cell not in before]
        before.update(dict.fromkeys(found, vertex))
        reached += found
    return []


def way_to(cell, before):
    return [*way_to(before[cell], before), cell] if cell in before else []


def of_chain(heading, values):
    return {"chain": names_listed(chain_of(heading.board, heading.winner))}


def of_move(heading, values):
    cell, child = values
    return {"chosen": name(cell), "child": child}


def of_links(heading, values, steps):
    links = links_of(heading, steps)
    is_shown = links and links[-1]
    return {"carrier": names(links[-1].carrier) if is_shown else "", "steps": steps_told(heading, steps, links)}


def of_all(heading, values, steps, threats, answers):
    """The carrier is that of all threats together, and the chosen cells are those that all of them share."""
    links = links_of(heading, steps)
    places = [place for _, (place,) in threats]
    found = [links[place] if place < len(links) else None for place in places]
    some, shared = 0, heading.board.empty()
    for link in filter(None, found):
        some, shared = some | link.carrier, shared & link.carrier
    return {"carrier": names(some), "chosen": names(shared), "steps": steps_told(heading, steps, links),
            "threats": [[place, *link_told(link, heading.winner)] for place, link in zip(places, found)],
            "lines": [[name(cell), kind, values[0] if kind == "child" else names_listed(values)]
                      for cell, kind, values in answers]}


def of_fill(heading, values, fills):
    """Each player has the cells that the fill steps give him."""
    others = {cell for kind, cells in fills for cell in cells if kind == "other"}
    own = {cell for kind, cells in fills for cell in cells if kind != "other"}
    return {f"{check.OTHER[heading.winner]}-fill": names_listed(sorted(others)),
            f"{heading.winner}-fill": names_listed(sorted(own)),
            "child": values[-1], "fills": [[kind, names_listed(cells)] for kind, cells in fills]}


def of_turned(heading, values):
    return {"child": values[0]}


OF_RULE = {"chain": of_chain, "move": of_move, "links": of_links, "all": of_all, "fill": of_fill, "turned": of_turned}
