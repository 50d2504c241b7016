#!/usr/bin/env python3
"""A second checker of the texts of strategy trees: `check.py check < TREE` answers as `hx check` does.

It was written from docs/formats.md and docs/definitions.md and from nothing else, so that whoever doubts the proved
checker has one that shares no code with it. It is not proved. Each rule names the section that it is from.

A set of cells or vertices is a number whose binary digits say what is in it, as in a mask.
"""
import re
import sys
from functools import partial
from typing import NamedTuple

LONGEST_LINE = 4096  # formats: Limits, bytes of a line without its LF
MOST_NODES = 1_048_576  # formats: Limits
WIDTH = 11  # formats: Texts, the index of a cell
OTHER = {"black": "white", "white": "black"}
FIRST, LAST = 121, 122  # definitions: What is joined, the code of a vertex
WAYS = (0, -1), (0, 1), (-1, 0), (1, 0), (-1, 1), (1, -1)  # definitions: The board, `neighbours_of`, in its order

class Wrong(Exception):
    """The line that was asked for last is not of the grammar in its place."""

class TooLong(Exception):
    """A limit is passed at the line that was asked for last."""

def require(is_so):
    if not is_so:
        raise Wrong

def only(member):
    return 1 << member

def has(members, member):
    return members >> member & 1 == 1

def members_of(members):
    while members:
        least = members & -members
        yield least.bit_length() - 1
        members ^= least

SIDES = only(FIRST) | only(LAST)

# ---- Boards

class Size:
    """Which cells there are, and for each player what touches what."""

    def __init__(self, rows, columns):
        self.rows, self.columns = rows, columns
        self.cells = [WIDTH * row + column for row in range(rows) for column in range(columns)]
        self.all_cells = sum(map(only, self.cells))
        self.touching = {player: self.graph_of(player) for player in OTHER}

    def graph_of(self, player):
        """definitions: What is joined, a player's graph. Black's sides are top and bottom, White's left and right."""
        touching = {FIRST: 0, LAST: 0}
        for cell in self.cells:
            row, column = divmod(cell, WIDTH)
            place, last_place = (row, self.rows - 1) if player == "black" else (column, self.columns - 1)
            sides = [FIRST] * (place == 0) + [LAST] * (place == last_place)
            around = [WIDTH * (row + down) + column + right for down, right in WAYS
                      if 0 <= row + down < self.rows and 0 <= column + right < self.columns]
            touching[cell] = sum(map(only, sides + around))
            for side in sides:
                touching[side] |= only(cell)
        return touching

    def turned(self, cells):
        """definitions: Turned boards, turned cell."""
        corner = WIDTH * (self.rows - 1) + self.columns - 1
        return sum(only(corner - cell) for cell in members_of(cells))

class Board(NamedTuple):
    size: Size
    black: int
    white: int

    def of(self, player):
        return self.black if player == "black" else self.white

    def put(self, player, *cells):
        return self._replace(**{player: self.of(player) | sum(map(only, cells))})

    def empty(self):
        return self.size.all_cells & ~(self.black | self.white)

    def is_empty(self, *cells):
        return all(has(self.empty(), cell) for cell in cells)

class Graph:
    """A player's graph on a board with stones (definitions: What is joined)."""

    def __init__(self, board, player):
        self.touching = board.size.touching[player]
        self.empty = board.empty()
        self.own = board.of(player) | SIDES
        self.open = self.empty | self.own
        self.joined = {}

    def joined_with(self, start):
        """All vertices that are joined with this one, itself among them."""
        if start not in self.joined:
            reached, to_leave = only(start), [start]
            while to_leave:
                found = self.touching[to_leave.pop()] & ~reached
                reached |= found
                to_leave.extend(members_of(found & self.own))  # between its two ends a walk is own
            self.joined[start] = reached
        return self.joined[start]

    def are_joined(self, one, other):
        return has(self.joined_with(one), other)

# ---- Links (definitions: Links, with its table of steps)

class Link(NamedTuple):
    is_full: bool
    ends: frozenset
    carrier: int

    def joins_sides(self):
        return self.ends == {FIRST, LAST}

    def is_on(self, graph):
        """`IsLink`. Whatever a step gives must be a link."""
        return len(self.ends) == 2 and all(
            has(graph.open, end) and not has(graph.empty & self.carrier, end) for end in self.ends)

def and_of(graph, kind, one, other):
    """AndStone and AndCell."""
    shared = one.ends & other.ends
    if not (one.is_full and other.is_full) or len(shared) != 1 or one.carrier & other.carrier:
        return None
    (between,) = shared
    ends, carrier = one.ends ^ other.ends, one.carrier | other.carrier
    if kind == "stone":
        return Link(True, ends, carrier) if has(graph.own, between) else None
    is_free = has(graph.empty & ~carrier, between)
    return Link(False, ends, carrier | only(between)) if is_free else None

def or_of(parts):
    """Or. That there are at most 128 parts is in the grammar too."""
    if len(parts) < 2 or any(part.is_full or part.ends != parts[0].ends for part in parts):
        return None
    of_all, of_some = parts[0].carrier, 0
    for part in parts:
        of_all, of_some = of_all & part.carrier, of_some | part.carrier
    return Link(True, parts[0].ends, of_some) if of_all == 0 else None

def link_of(graph, links, kind, values):
    """The link of a step after the links of those before it, or none."""
    if kind == "base":
        link = Link(True, frozenset(values), 0) if graph.are_joined(*values) else None
    elif any(place >= len(links) for place in values):
        return None  # a step names neither itself nor a later one
    else:
        parts = [links[place] for place in values]
        link = or_of(parts) if kind == "or" else and_of(graph, kind, *parts)
    return link if link and link.is_on(graph) else None

def links_of(graph, steps):
    """The links of all steps, or none where a step gives none (definitions: Who wins, right steps)."""
    links = []
    for kind, values in steps:
        links.append(link_of(graph, links, kind, values))
        if links[-1] is None:
            return None
    return links

# ---- Inferior cells (definitions: Inferior cells)

def is_dead(board, player, cell):
    """Dead. The open neighbours are cells and the player's sides."""
    graph = Graph(board, player)
    neighbours = graph.touching[cell] & graph.open
    return board.is_empty(cell) and all(
        neighbours & ~graph.joined_with(neighbour) == 0 for neighbour in members_of(neighbours))

def is_pair(board, player, one, other):
    """Captured pair. Where each is dead once the player has the other, they differ, and both are empty."""
    return is_dead(board.put(player, other), player, one) and is_dead(board.put(player, one), player, other)

def is_dominated(board, mover, cell, kind, better, *third):
    """Dominated. The kind of the line says in which of the two ways (formats: The text of a tree)."""
    if not board.is_empty(better):
        return False
    after = board.put(mover, better)
    return is_dead(after, OTHER[mover], cell) if kind == "dead" else is_pair(after, mover, cell, *third)

def filled(board, winner, kind, cells):
    """Fill step: the board after it, or none where it may not be done."""
    if kind == "other":
        return board.put(OTHER[winner], *cells) if board.is_empty(*cells) else None
    may_be_done = (is_dead if kind == "dead" else is_pair)(board, winner, *cells)
    return board.put(winner, *cells) if may_be_done else None

# ---- Nodes (definitions: Trees, right node)

class Heading(NamedTuple):
    board: Board
    mover: str
    winner: str

class Judge:
    """Whether a node is right after the headings of those before it: each rule is a method of its name."""

    def __init__(self):
        self.headings = []

    def is_there(self, child, *heading):
        """The heading with the child's number is there, and so below the node's own, and is this one."""
        return child < len(self.headings) and self.headings[child] == heading

    def chain(self, heading, values):
        return Graph(heading.board, heading.winner).are_joined(FIRST, LAST)

    def move(self, heading, values):
        (board, mover, winner), (cell, child) = heading, values
        return (mover == winner and board.is_empty(cell)
                and self.is_there(child, board.put(winner, cell), OTHER[winner], winner))

    def links(self, heading, values, steps):
        links = links_of(Graph(heading.board, heading.winner), steps)
        # Without links some step gives none, or there is no step.
        return bool(links) and links[-1].joins_sides() and (links[-1].is_full or heading.mover == heading.winner)

    def all(self, heading, values, steps, threats, answers):
        graph = Graph(heading.board, heading.winner)
        links = links_of(graph, steps)
        if heading.mover == heading.winner or not graph.empty or links is None:
            return False
        to_answer = graph.empty
        for _, (place,) in threats:
            if place >= len(links) or not links[place].joins_sides():
                return False
            to_answer &= links[place].carrier
        if [cell for cell, *_ in answers] != list(members_of(to_answer)):
            return False  # one line for each of them, in cell order, and no other line
        # What is outside the carrier of some threat is empty and not to be answered.
        with_child = sum(only(cell) for cell, kind, _ in answers if kind == "child")
        better_cells = with_child | graph.empty & ~to_answer
        return all(self.answer(heading, better_cells, *answer) for answer in answers)

    def answer(self, heading, better_cells, cell, kind, values):
        """Child line and Under line."""
        board, mover, winner = heading
        if kind == "child":
            return self.is_there(values[0], board.put(mover, cell), winner, winner)
        return has(better_cells, values[0]) and is_dominated(board, mover, cell, kind, *values)

    def fill(self, heading, values, fills):
        board, mover, winner = heading
        for kind, cells in fills:
            board = filled(board, winner, kind, cells)
            if board is None:
                return False
        return len(fills) > 0 and self.is_there(values[-1], board, mover, winner)

    def turned(self, heading, values):
        size, black, white = heading.board
        turned = Board(size, size.turned(black), size.turned(white))
        return self.is_there(values[0], turned, heading.mover, heading.winner)

# ---- Words (formats: Texts). Each reader gives the value of a word on boards of a size.

def number(word, size=None, most=4_294_967_295):
    require(re.fullmatch("0|[1-9][0-9]{0,9}", word) and int(word) <= most)
    return int(word)

def up_to(most):
    return partial(number, most=most)

def cell(word, size):
    require(re.fullmatch("[a-k][1-9][0-9]?", word))
    row, column = int(word[1:]) - 1, "abcdefghijk".index(word[0])
    require(row < size.rows and column < size.columns)
    return WIDTH * row + column

def vertex(word, size):
    return {"first": FIRST, "last": LAST}.get(word) or cell(word, size)

def mask(word, size):
    require(re.fullmatch("[0-9a-f]{32}", word) and not int(word, 16) & ~size.all_cells)
    return int(word, 16)

def colour(word, size):
    require(word in OTHER)
    return word

# ---- Lines (formats: The text of a tree). A form is the first word, and a reader for each of the others.

RULES = {"chain": (), "links": (up_to(8192),), "move": (cell, number), "all": (up_to(8192), up_to(128), up_to(121)),
         "fill": (up_to(121), number), "turned": (number,)}
STEPS = {"base": (vertex, vertex), "stone": (number, number), "cell": (number, number)}
THREATS = {"threat": (number,)}
ANSWERS = {"child": (number,), "dead": (cell,), "pair": (cell, cell)}
FILLS = {"other": (cell,), "dead": (cell,), "pair": (cell, cell)}

def read_form(forms, words, size=None):
    """The first word, and the values of the others."""
    require(words and words[0] in forms and len(words) - 1 == len(forms[words[0]]))
    return words[0], [read(word, size) for read, word in zip(forms[words[0]], words[1:])]

def read_step(words, size):
    parts = len(words) - 1
    return read_form({**STEPS, "or": (number,) * parts} if parts <= 128 else STEPS, words, size)

def read_answer(words, size):
    (_, (answered,)) = read_form({"line": (cell,)}, words[:2], size)
    return (answered, *read_form(ANSWERS, words[2:], size))

ENTRIES = {"links": (read_step,), "all": (read_step, partial(read_form, THREATS), read_answer),
           "fill": (partial(read_form, FILLS),)}

class Lines:
    """The lines of a stream of bytes, one after the other, and the number of the last one that was asked for."""

    def __init__(self, source):
        self.source, self.number = source, 0

    def next_piece(self):
        """The next line with its LF, the last bytes without one, or nothing."""
        self.number += 1
        piece = self.source.readline(LONGEST_LINE + 1)
        if len(piece) > LONGEST_LINE and not piece.endswith(b"\n"):
            raise TooLong
        return piece

    def next_words(self):
        piece = self.next_piece()
        require(piece.endswith(b"\n"))  # formats: Where a text goes wrong, a line that is missing or not ended
        return piece[:-1].decode("latin-1").split(" ")  # one character a byte

    def end(self):
        require(not self.next_piece())  # formats: Where a text goes wrong, a text that goes on

def read_preamble(lines):
    version = lines.next_words()
    require(version in (["hextree", "1"], ["hextree", "2"]))
    _, extent = read_form({"size": (up_to(11), up_to(11))}, lines.next_words())
    require(0 not in extent)
    rules = {name: form for name, form in RULES.items() if name != "turned" or version[1] == "2"}
    return rules, Size(*extent)

def read_node(lines, words, rules, size, is_full=False):
    _, (black, white, mover, winner) = read_form({"node": (mask, mask, colour, colour)}, words[:5], size)
    require(not black & white)  # formats: The text of a position, no cell is in both masks
    rule, values = read_form(rules, words[5:], size)
    if is_full:
        raise TooLong
    entries = [[read(lines.next_words(), size) for _ in range(count)]
               for read, count in zip(ENTRIES.get(rule, ()), values)]
    return Heading(Board(size, black, white), mover, winner), rule, values, entries

# ---- Answers (formats: The answers of `check`)

def position_text(heading):
    """formats: The text of a position."""
    size, black, white = heading.board
    return (f"hexpos 1\nsize {size.rows} {size.columns}\n"
            f"black {black:032x}\nwhite {white:032x}\nmove {heading.mover}\n")

def judged(lines):
    """A node is judged when its last line was read, and what is wrong first is told."""
    rules, size = read_preamble(lines)
    judge = Judge()
    while (words := lines.next_words())[0] != "end" or not judge.headings:
        is_full = len(judge.headings) == MOST_NODES
        heading, rule, values, entries = read_node(lines, words, rules, size, is_full)
        if not getattr(judge, rule)(heading, values, *entries):
            return 1, f"no node {len(judge.headings)}\n"
        judge.headings.append(heading)
    root = judge.headings[-1]
    require(words == ["end", str(len(judge.headings)), root.winner])
    lines.end()
    return 0, f"yes {root.winner}\n{position_text(root)}"

def answer_to(source):
    lines = Lines(source)
    try:
        return judged(lines)
    except Wrong:
        return 1, f"no text {lines.number}\n"
    except TooLong:
        return 8, "too long\n"

def run(words):
    if words != ["check"]:
        return 2, "bad words\n"
    try:
        return answer_to(open(0, "rb"))
    except OSError:
        return 5, "read fault\n"
    except MemoryError:
        return 7, "out of memory\n"

def main():
    status, output = run(sys.argv[1:])
    try:
        with open(1, "wb", closefd=False) as sink:
            sink.write(output.encode())
    except OSError:
        return 6
    return status

if __name__ == "__main__":
    sys.exit(main())
