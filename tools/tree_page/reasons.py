"""Why a node is wrong: the first condition that fails, by its name in conformance/conditions.md, in a sentence.

Whether a node is right checkers/check.py says, and its parts say what fails; here its conditions are looked at one by
one. A text that is no tree's has a reason too, where its wrong line passes a limit that is a condition."""
import io
import os
import re
import subprocess
from typing import NamedTuple, Tuple

from .program import PROGRAM
from .records import NoTree, check, end_told, name, names_listed, vertex_spelled

DIGITS = "[0-9a-f]{32}"


class Reason(NamedTuple):
    condition: str  # as conformance/conditions.md names it, or two of them with a semicolon between
    words: str
    cells: Tuple[int, ...] = ()  # of which the sentence speaks


class Fault(NamedTuple):
    """The first wrong node."""
    number: int
    rule: str
    heading: check.Heading
    reason: Reason


class NoText(NoTree):
    """The bytes are not the text of a tree, with the reason where a limit is passed."""


def whose(player):
    return f"{player.capitalize()}'s"


# ---- Chains

def no_chain(heading):
    """Which one thing would make a chain, if it were otherwise."""
    player = heading.winner
    for condition, words, has_chain in NEAR_CHAINS:
        if has_chain(heading.board, player):
            return Reason(condition.format(player.capitalize()), f"{player.capitalize()} has no chain: {words}")
    return Reason("Walk", f"{player.capitalize()} has no chain")


def reaches(board, player, own, first=0, last=0, near=check.WAYS, row_ends=False):
    """Whether cells of these join the two sides, where a side's lines may be so many more, and cells touch in
    these ways."""
    size = board.size
    place = (lambda cell: cell // check.WIDTH) if player == "black" else (lambda cell: cell % check.WIDTH)
    end = (size.rows if player == "black" else size.columns) - 1
    cells = {cell for cell in size.cells if check.has(own, cell)}
    to_leave = [cell for cell in cells if place(cell) <= first]
    reached = set(to_leave)
    while to_leave:
        row, column = divmod(to_leave.pop(), check.WIDTH)
        around = {check.WIDTH * (row + down) + column + right for down, right in near
                  if row_ends and (row + down, column + right) != (row, column) or 0 <= column + right < size.columns}
        if row_ends:
            around |= next_row_ends(size, row, column)
        found = around & cells - reached
        reached |= found
        to_leave += found
    return any(place(cell) >= end - last for cell in reached)


def next_row_ends(size, row, column):
    """The cell behind the last one of a row is the first one of the next row, and the other way round."""
    behind = {check.WIDTH * (row + 1)} if column == size.columns - 1 else set()
    return behind | ({check.WIDTH * (row - 1) + size.columns - 1} if column == 0 else set())


ALL_WAYS = (*check.WAYS, (1, 1), (-1, -1))
NEAR_CHAINS = [
    ("Touches, CellsTouch", "two cells of it do not touch",
     lambda board, player: reaches(board, player, board.of(player), near=ALL_WAYS)),
    ("Touches, OnBoard", "the ends of two rows do not touch",
     lambda board, player: reaches(board, player, board.of(player), row_ends=True)),
    ("Touches, IsFirstLine for {}", "it begins one line behind its first side",
     lambda board, player: reaches(board, player, board.of(player), first=1)),
    ("Touches, IsLastLine for {}", "it ends one line before its last side",
     lambda board, player: reaches(board, player, board.of(player), last=1)),
    ("Walk, IsOwn: no stone of the opponent", "a stone of the opponent's stands in it",
     lambda board, player: reaches(board, player, board.black | board.white)),
    ("Walk, IsOwn: no empty cell", "an empty cell is in it",
     lambda board, player: reaches(board, player, board.of(player) | board.empty())),
]


# ---- Steps

def parts_of(kind, values):
    return () if kind == "base" else tuple(values)


def no_link(graph, player, links, kind, values):
    """Why a step gives no link after the links of those before it."""
    if kind == "base":
        one, other = (end_told(value, player) for value in values)
        if not graph.are_joined(*values):
            return Reason("GivesBase.joined", f"the ends of a base are not joined: {one} and {other}", cells_in(values))
        return no_link_at(graph, check.Link(True, frozenset(values), 0), player)
    if kind == "or":
        return no_or(graph, player, links, values)
    return no_and(graph, player, links, kind, values)


def no_and(graph, player, links, kind, values):
    sides = list(zip(("first", "second"), values))
    for side, place in sides:
        if place >= len(links):
            return Reason(f"GoesOver.{side}_there, by {kind}", f"its {side} link, {place}, is no earlier one")
    for side, place in sides:
        if not links[place].is_full:
            return Reason(f"GoesOver.{side}_full, by {kind}", f"its {side} link, {place}, is not Full")
    one, other = (links[place] for place in values)
    shared = one.ends & other.ends
    if len(shared) != 1:
        return Reason("GoesOver.first_ends, second_ends", f"its links have {len(shared)} ends in common, and not one")
    both = tuple(check.members_of(one.carrier & other.carrier))
    if both:
        return Reason(f"GoesOver.apart, by {kind}", f"the carriers of its links share {names_listed(both)}", both)
    (between,) = shared
    if kind == "stone" and not check.has(graph.own, between):
        return Reason("GivesAndStone.own", f"its links meet at {name(between)}, which has no stone of {whose(player)}",
                      (between,))
    if kind == "cell" and not check.has(graph.empty, between):
        return Reason("GivesAndCell.empty", f"its links meet at {end_told(between, player)}, which is no empty cell",
                      cells_in([between]))
    if kind == "cell" and check.has(one.carrier | other.carrier, between):
        return Reason("GivesAndCell.outside_first, outside_second",
                      f"its links meet at {name(between)}, which is in a carrier", (between,))
    carrier = one.carrier | other.carrier | (check.only(between) if kind == "cell" else 0)
    return no_link_at(graph, check.Link(kind == "stone", one.ends ^ other.ends, carrier), player)


def no_or(graph, player, links, values):
    missing = [place for place in values if place >= len(links)]
    if missing:
        return Reason("GivesOr.there", f"its part {missing[0]} is no earlier link")
    if len(values) < 2:
        return Reason("GivesOr.several", "it has fewer than two parts")
    parts = [links[place] for place in values]
    full = [place for place, part in zip(values, parts) if part.is_full]
    if full:
        return Reason("GivesOr.semi", f"its part {full[0]} is not Semi")
    if any(part.ends != parts[0].ends for part in parts):
        return Reason("GivesOr.same_ends", "its parts have not the same ends")
    of_all, of_some = parts[0].carrier, 0
    for part in parts:
        of_all, of_some = of_all & part.carrier, of_some | part.carrier
    if of_all:
        shared = tuple(check.members_of(of_all))
        return Reason("GivesOr.none_in_all", f"all its parts have {names_listed(shared)} in their carriers", shared)
    return no_link_at(graph, check.Link(True, parts[0].ends, of_some), player)


def no_link_at(graph, link, player):
    """Why this is no link (`IsLink`)."""
    if len(link.ends) != 2:
        return Reason("StepGives.link_ok, IsLink.lower_first", "its two ends are the same")
    ends = sorted(link.ends)
    closed = [end for end in ends if not check.has(graph.open, end)]
    if closed:
        return Reason("StepGives.link_ok, IsLink.a_end, b_end",
                      f"its end {name(closed[0])} has a stone of the opponent's", (closed[0],))
    inside = [end for end in ends if check.has(graph.empty & link.carrier, end)]
    if inside:
        return Reason("StepGives.link_ok, IsLink.outside", f"its end {name(inside[0])} is an empty cell of its carrier",
                      (inside[0],))
    return None


def cells_in(vertices):
    return tuple(vertex for vertex in vertices if vertex < check.FIRST)


def needed(steps, places):
    """The steps that the links at these places rest on."""
    found, left = set(), list(places)
    while left:
        place = left.pop()
        if place < len(steps) and place not in found:
            found.add(place)
            left += parts_of(*steps[place])
    return found


def wrong_step(heading, steps, places, unneeded):
    """Why the first step that gives no link does not. Where the links at these places do not rest on it, the
    condition is named too by which it is wrong all the same."""
    graph, links = check.Graph(heading.board, heading.winner), []
    for number, (kind, values) in enumerate(steps):
        link = check.link_of(graph, links, kind, values)
        if link is None:
            reason = no_link(graph, heading.winner, links, kind, values)
            told = f"step {number}, {step_told(kind, values)}, gives no link: {reason.words}"
            is_needed = number in needed(steps, places)
            named = reason.condition if is_needed else f"{unneeded}; {reason.condition}"
            return reason._replace(words=told, condition=named), links
        links.append(link)
    return None, links


def step_told(kind, values):
    return " ".join([kind, *(vertex_spelled(value) if kind == "base" else str(value) for value in values)])


# ---- Nodes

class Reasons(check.Judge):
    """The first condition of a node that fails after the headings of those before it: a rule is a method of its
    name."""

    def no_child(self, definition, child, *heading):
        """Why the node with this number is not there, or not this one."""
        what = [("position", "other stones"), ("to_move", "another player to move"), ("winner", "another winner")]
        if child >= len(self.headings):
            return Reason(f"{definition}, Leads: there", f"the child, node {child}, is no earlier node")
        for (part, told), wanted, came in zip(what, heading, self.headings[child]):
            if wanted != came:
                cells = differing(wanted, came) if part == "position" else ()
                where = f" on {names_listed(cells)}" if cells else ""
                return Reason(f"{definition}, Leads: {part}", f"the child, node {child}, has {told}{where}", cells)
        return None

    def chain(self, heading, values):
        return None if super().chain(heading, values) else no_chain(heading)

    def move(self, heading, values):
        (board, mover, winner), (cell, child) = heading, values
        if mover != winner:
            return Reason("IsRightMove.mover", f"{winner.capitalize()} moves, who is not to move", (cell,))
        if check.has(board.of(winner), cell):
            return Reason("IsRightMove.empty: no own stone", f"the cell {name(cell)} has a stone of {whose(winner)}",
                          (cell,))
        if not board.is_empty(cell):
            return Reason("IsRightMove.empty: no stone of the opponent",
                          f"the cell {name(cell)} has a stone of the opponent's", (cell,))
        return self.no_child("IsRightMove.leads", child, board.put(winner, cell), check.OTHER[winner], winner)

    def links(self, heading, values, steps):
        if not steps:
            return Reason("AreRightLinks.is_last", "there is no step, and so no link")
        reason, links = wrong_step(heading, steps, [len(steps) - 1], "GiveLinks.right")
        if reason:
            return reason
        last = links[-1]
        reason = no_chain_link(last, heading.winner, "AreRightLinks.joins", "the last link")
        if reason:
            return reason
        if not last.is_full and heading.mover != heading.winner:
            return Reason("AreRightLinks.in_time",
                          f"the last link is Semi, and {heading.winner.capitalize()} is not to move")
        return None

    def all(self, heading, values, steps, threats, answers):
        empty = heading.board.empty()
        if heading.mover == heading.winner:
            return Reason("IsRightAll.mover",
                          f"{heading.winner.capitalize()} is to move, and so the opponent has no move to answer")
        if not empty:
            return Reason("IsRightAll.some_empty", "there is no empty cell, and so no move to answer")
        places = [place for _, (place,) in threats]
        reason, links = wrong_step(heading, steps, places, "IsRightAll.steps_right, GiveLinks.right")
        to_answer = empty
        for place in places if not reason else []:
            reason = reason or no_threat(place, links, heading.winner)
            to_answer &= links[place].carrier if place < len(links) else 0
        return reason or no_order(answers, empty, to_answer) or self.wrong_line(heading, answers, empty, to_answer)

    def wrong_line(self, heading, answers, empty, to_answer):
        with_child = sum(check.only(cell) for cell, kind, _ in answers if kind == "child")
        for cell, kind, values in answers:
            reason = self.no_answer(heading, with_child | empty & ~to_answer, cell, kind, values)
            if reason:
                return reason._replace(words=f"the line of {name(cell)}: {reason.words}", cells=(cell, *reason.cells))
        return None

    def no_answer(self, heading, better_cells, cell, kind, values):
        board, mover, winner = heading
        if kind == "child":
            return self.no_child("IsRightLine, Child", values[0], board.put(mover, cell), winner, winner)
        better = values[0]
        if not board.is_empty(better):
            return Reason("IsDominated.better_empty", f"the better cell {name(better)} is not empty", (better,))
        if not check.has(better_cells, better):
            told = f"the better cell {name(better)} has no line with a child, and all threats have it"
            return Reason("IsRightLine, Under", told, (better,))
        if check.is_dominated(board, mover, cell, kind, *values):
            return None
        if kind == "dead":
            return Reason("IsKilled by a dead cell, IsDead.joined",
                          f"after {name(better)} it is not dead for {winner.capitalize()}", (better,))
        third = values[1]
        reason = no_pair(board.put(mover, better), mover, cell, third)
        return Reason(f"IsKilled by a captured pair, IsPair; {reason.condition}",
                      f"after {name(better)}, {reason.words}", (better, third))

    def fill(self, heading, values, fills):
        board, mover, winner = heading
        if not fills:
            return Reason("IsRightFill.some", "there is no fill step")
        for number, (kind, cells) in enumerate(fills):
            after = check.filled(board, winner, kind, cells)
            if after is None:
                reason = no_fill(board, winner, kind, cells)
                return reason._replace(words=f"fill step {number}, {kind} {names_listed(cells)}: {reason.words}",
                                       cells=tuple(cells))
            board = after
        return self.no_child("IsRightFill.leads", values[-1], board, mover, winner)

    def turned(self, heading, values):
        size, black, white = heading.board
        reason = self.no_child("", values[0], check.Board(size, size.turned(black), size.turned(white)), heading.mover,
                               heading.winner)
        named = {"there": "IsRightTurn: slice_get before child", "position": "IsTurned.stones",
                 "to_move": "IsTurnedHeading.same_mover", "winner": "IsTurnedHeading.same_winner"}
        return reason and reason._replace(condition=named[reason.condition.rpartition(" ")[2]])


def differing(one, other):
    """The cells on which two boards differ."""
    return tuple(check.members_of(one.black ^ other.black | one.white ^ other.white))


def no_chain_link(link, player, definition, what):
    for side, vertex in (("first", check.FIRST), ("last", check.LAST)):
        if vertex not in link.ends:
            return Reason(f"{definition}, IsChainLink.{side}", f"{what} does not end at {end_told(vertex, player)}")
    return None


def no_threat(place, links, player):
    if place >= len(links):
        return Reason("AreThreats.each: there", f"the threat {place} is no step's")
    return no_chain_link(links[place], player, "AreThreats.each", f"the threat {place}")


def no_order(answers, empty, to_answer):
    """Why the lines are not those that are wanted: one for each cell that needs one, in cell order."""
    cells = [cell for cell, *_ in answers]
    missing = [cell for cell in check.members_of(to_answer) if cell not in cells]
    if missing:
        return Reason("AreInOrder.each", f"the cell {name(missing[0])} is to be answered and has no line",
                      (missing[0],))
    for cell in cells:
        if not check.has(empty, cell):
            return Reason("AreInOrder.only, IsToAnswer.empty", f"the cell {name(cell)} has a line and is not empty",
                          (cell,))
        if not check.has(to_answer, cell):
            return Reason("AreInOrder.only, IsToAnswer.shared",
                          f"the cell {name(cell)} has a line and is outside a threat", (cell,))
    for before, cell in zip(cells, cells[1:]):
        if cells.count(cell) > 1:
            return Reason("AreInOrder.in_order: once", f"the cell {name(cell)} has two lines", (cell,))
        if cell < before:
            return Reason("AreInOrder.in_order: order",
                          f"the line of {name(cell)} stands behind that of {name(before)}", (cell,))
    return None


def no_fill(board, winner, kind, cells):
    """Why a fill step may not be done."""
    if kind == "other":
        own = check.has(board.of(winner), cells[0])
        who, told = (winner, "own stone") if own else (check.OTHER[winner], "stone of the opponent")
        return Reason(f"MayFill, Other: no {told}", f"the cell has a stone of {whose(who)}")
    if kind == "dead":
        if not board.is_empty(*cells):
            return Reason("MayFill, IsDead.empty", "the cell is not empty")
        return Reason("MayFill, IsDead.joined", f"open neighbours of the cell are not joined for {winner.capitalize()}")
    return no_pair(board, winner, *cells)


def no_pair(board, player, one, other):
    if not check.is_dead(board.put(player, other), player, one):
        return Reason("IsPair.a_dead", f"{name(one)} is not dead once {player.capitalize()} has {name(other)}")
    return Reason("IsPair.b_dead", f"{name(other)} is not dead once {player.capitalize()} has {name(one)}")


# ---- Limits of a text

def limit_passed(words):
    """Of a line that is not of the grammar the condition that it fails, where it is one."""
    line = " ".join(words)
    size = re.fullmatch("size ([0-9]{1,9}) ([0-9]{1,9})", line)
    if size:
        rows, columns = map(int, size.groups())
        if 0 in (rows, columns):
            return Reason("IsBoard, IsExtent: 1 ≤ rows, 1 ≤ cols", "a board has a row and a column")
        part, told = ("rows", "rows") if rows > 11 else ("cols", "columns")
        return Reason(f"IsBoard, IsExtent: {part} ≤ 11", f"a board has at most eleven {told}")
    return Reason("GivesOr.few", "an Or has at most 128 parts") if words[0] == "or" and len(words) > 129 else None


def node_limit_passed(line, size):
    """The same for the first line of a node, on boards of this size."""
    found = re.fullmatch(f"node ({DIGITS}) ({DIGITS}) \\w+ \\w+ (\\w+)([ 0-9]*).*", line)
    if not found:
        return None
    black, white = int(found[1], 16), int(found[2], 16)
    for player, stones in (("black", black), ("white", white)):
        if stones & ~size.all_cells:
            return Reason(f"IsPosition.{player}_inside", f"a {player} stone is off the board")
    if black & white:
        both = tuple(check.members_of(black & white))
        return Reason("IsPosition.apart", f"there are two stones on {names_listed(both)}", both)
    counts = [*(int(word[:9]) for word in found[4].split()), 0, 0]
    if found[3] in ("links", "all") and counts[0] > 8192:
        definition = "AreRightLinks" if found[3] == "links" else "IsRightAll.steps_right"
        return Reason(f"{definition}, GiveLinks.few", "a node has at most 8,192 steps")
    if found[3] == "all" and counts[1] > 128:
        return Reason("AreThreats.few", "there are at most 128 threats")
    return None


class ReadLines(check.Lines):
    """Lines of which the last one is kept."""
    last = b""

    def next_piece(self):
        self.last = super().next_piece()
        return self.last


def no_text(lines, size):
    words = lines.last.rstrip(b"\n").decode("latin-1").split(" ")
    reason = limit_passed(words) or (node_limit_passed(" ".join(words), size) if size and words[0] == "node" else None)
    told = f": {reason.words} ({reason.condition})" if reason else ""
    return NoText(f"line {lines.number} is not of the text of a tree{told}")


# ---- Trees

def first_fault(content, number=None):
    """The first wrong node, or nothing. Nodes before the one with a number that is given are taken to be right."""
    lines, size = ReadLines(io.BytesIO(content)), None
    try:
        rules, size = check.read_preamble(lines)
        reasons = Reasons()
        while (words := lines.next_words())[0] != "end" or not reasons.headings:
            heading, rule, values, entries = check.read_node(lines, words, rules, size)
            if number is None or number == len(reasons.headings):
                reason = getattr(reasons, rule)(heading, values, *entries)
                if reason:
                    return Fault(len(reasons.headings), rule, heading, reason)
            reasons.headings.append(heading)
        check.require(words == ["end", str(len(reasons.headings)), reasons.headings[-1].winner])
        lines.end()
    except (check.Wrong, check.TooLong):
        raise no_text(lines, size) from None
    return None


def fault_by_program(content):
    """The same, where the built program says which node it is, in less time. Without it all nodes are judged here."""
    if not os.access(PROGRAM, os.X_OK):
        return first_fault(content)
    answer = subprocess.run([PROGRAM, "check"], input=content, stdout=subprocess.PIPE).stdout
    found = re.match(rb"no node ([0-9]+)\n", answer)
    return first_fault(content, int(found[1])) if found else None
