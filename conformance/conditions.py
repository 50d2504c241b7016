#!/usr/bin/env python3
"""Holds, for each condition of a right node, a tree that fails by this condition alone: conformance/conditions.py [--check]

A row names a condition by its definition in specs/ and the part of it, says it in words, and has a case of this folder. That the
case fails by this condition alone is tried: checkers/check.py refuses it, and with the condition left out, by the changes of the
row, accepts it. A row without a case says why no tree can fail by this condition alone; then no case may be accepted without it.

It writes conditions.md; with --check it writes nothing and tells where that is old. Ends with 1 where something is not so."""
import io
import pathlib
import sys
import types
from typing import NamedTuple

HERE = pathlib.Path(__file__).resolve().parent
CHECKER = HERE.parent / "checkers" / "check.py"
TABLE = HERE / "conditions.md"
LARGEST = 1_000_000  # bytes of a case that is tried against conditions without a case

HEAD = """# Conditions and their cases

Each condition of a right node (`IsRightNode` of hx_tree and what it rests on, in the `specs/` of hx_tree, hx_link, hx_inferior, hx_turn and
hx_board), and a tree that fails by this condition alone: [checkers/check.py](../checkers/check.py) accepts it where this one condition
is left out. Where there is none it is said why. `conformance/conditions.py` makes this table and tries each row; `.ci/conformance` runs it.
[tools/why-wrong](../tools/README.md#why-a-tree-is-wrong) says of a wrong tree which of these its first
wrong node fails by.

| condition | in words | case |
|---|---|---|
"""


class Condition(NamedTuple):
    name: str  # the definition and its part
    words: str
    case: str  # or none, where the words below say why
    changes: list  # of the checker: what is taken out and what comes in its place
    why: str = ""


# ---- Changes of the checker

def heading_left_out(call, place):
    """The child's heading is looked at but for its position (0), mover (1) or winner (2); or, with None, it need not be there."""
    child, _, heading = call.removeprefix("self.is_there(").removesuffix(")").partition(", ")
    looks = ("child >= len(self.headings) or self.headings[child] == heading" if place is None else
             f"child < len(self.headings) and all(self.headings[child][at] == heading[at] for at in range(3) if at != {place})")
    return [(call, f"self.is_near({child}, ({heading}))"),
            ("    def chain(self, heading, values):", f"    def is_near(self, child, heading):\n        return {looks}\n\n"
             "    def chain(self, heading, values):")]


def headings(definition, rule, call, cases, what):
    """The four conditions of a node's child, in the order of `cases`."""
    words = [("there", "the child is an earlier node", None), ("position", f"its position is {what}", 0),
             ("to_move", "its player to move is the one who is to move then", 1), ("winner", "its winner is the node's", 2)]
    return [Condition(f"{definition}, Leads: {part}", f"{rule}: {said}", case, heading_left_out(call, place))
            for (part, said, place), case in zip(words, cases)]


def place_left_out(kind, at):
    """A step of this kind whose place, the first or the second, names no earlier link stands for the last one before it."""
    old = "    elif any(place >= len(links) for place in values):\n"
    new = (f"    elif kind == \"{kind}\" and links and values[{at}] >= len(links):\n"
           f"        values = list(values)\n        values[{at}] = len(links) - 1\n        return link_of(graph, links, kind, values)\n")
    return [(old, new + old)]


def and_rule(old, new, kind):
    """The condition of both And rules, left out for one kind of step."""
    line = "    if not (one.is_full and other.is_full) or len(shared) != 1 or one.carrier & other.carrier:\n"
    assert old in line
    return [(line, line.replace("    if not", f"    if kind != \"{kind}\" and (not").replace(":\n", "):\n        return None\n")
             + line.replace(old, new).replace("    if not", f"    if kind == \"{kind}\" and (not").replace(":\n", "):\n"))]


MASKS = "{\"node\": (mask, mask, colour, colour)}"
ANY_MASK = "lambda word, size: int(word, 16)"
AROUND = "if 0 <= row + down < self.rows and 0 <= column + right < self.columns]"
JOINS = "return bool(links) and links[-1].joins_sides() and"
MOVE = "return (mover == winner and board.is_empty(cell)\n"
ALL = "if heading.mover == heading.winner or not graph.empty or links is None:"
CELLS = "if [cell for cell, *_ in answers] != list(members_of(to_answer)):"
DOMINATED = "    if not board.is_empty(better):\n"
PAIR = "    return is_dead(board.put(player, other), player, one) and is_dead(board.put(player, one), player, other)\n"
IS_ON = ("        return len(self.ends) == 2 and all(\n"
         "            has(graph.open, end) and not has(graph.empty & self.carrier, end) for end in self.ends)\n")
LINK = "StepGives.link_ok, IsLink"

# ---- The conditions

POSITIONS = [
    Condition("IsBoard, IsExtent: 1 ≤ rows, 1 ≤ cols", "a board has a row and a column", None,
              [("    require(0 not in extent)\n", "")], "without a cell nobody has a chain, and there is no move"),
    Condition("IsBoard, IsExtent: rows ≤ 11", "a board has at most eleven rows", "made/preamble/twelve-rows",
              [("(up_to(11), up_to(11))", "(up_to(12), up_to(11))")]),
    Condition("IsBoard, IsExtent: cols ≤ 11", "a board has at most eleven columns", "made/preamble/twelve-columns",
              [("(up_to(11), up_to(11))", "(up_to(11), up_to(12))")]),
    Condition("IsPosition.apart", "no cell has two stones", "written/position/a-cell-with-two-stones",
              [("    require(not black & white)", "    require(True)")]),
    Condition("IsPosition.black_inside", "each black stone is on the board", "written/position/a-black-stone-off-the-board",
              [(MASKS, MASKS.replace("mask", ANY_MASK, 1))]),
    Condition("IsPosition.white_inside", "each white stone is on the board", "written/position/a-white-stone-off-the-board",
              [(MASKS, MASKS.replace("mask, mask", f"mask, {ANY_MASK}"))]),
]

CHAINS = [
    Condition("Touches, CellsTouch", "cells that follow one another touch", "written/chain/diagonal-that-does-not-touch",
              [("(-1, 1), (1, -1)  #", "(-1, 1), (1, -1), (1, 1), (-1, -1)  #")]),
    Condition("Touches, OnBoard", "both cells that touch are on the board", "written/chain/row-ends-do-not-touch",
              [(AROUND, "if WIDTH * (row + down) + column + right in self.cells\n"
                        "                      or (WIDTH * (row + down) + column + right) % WIDTH > self.columns]")]),
    Condition("Touches, IsFirstLine for Black", "a chain begins in the top row", "written/chain/starts-one-row-below-the-top",
              [("[FIRST] * (place == 0)", "[FIRST] * (place <= (player == \"black\"))")]),
    Condition("Touches, IsFirstLine for White", "or in the left column", "written/chain/starts-one-column-behind-the-left",
              [("[FIRST] * (place == 0)", "[FIRST] * (place <= (player == \"white\"))")]),
    Condition("Touches, IsLastLine for Black", "a chain ends in the bottom row", "written/chain/ends-one-row-above-the-bottom",
              [("[LAST] * (place == last_place)", "[LAST] * (place >= last_place - (player == \"black\"))")]),
    Condition("Touches, IsLastLine for White", "or in the right column", "written/chain/ends-one-column-before-the-right",
              [("[LAST] * (place == last_place)", "[LAST] * (place >= last_place - (player == \"white\"))")]),
    Condition("Walk, IsOwn: no empty cell", "between its ends a walk has no empty cell", "written/chain/empty-cell",
              [("found & self.own))", "found & self.open))")]),
    Condition("Walk, IsOwn: no stone of the opponent", "and no stone of the opponent", "written/chain/stone-of-the-opponent",
              [("found & self.own))", "found & ~self.empty))")]),
]

STEPS = [
    Condition("GivesBase.joined", "the ends of a base are joined", "written/steps/base-of-cells-that-do-not-touch",
              [("if graph.are_joined(*values) else None", "if True else None")]),
    *(Condition(f"GoesOver.{side}_there, by {kind}", f"the {side} link of a step by {kind} is an earlier one",
                f"written/steps/{kind}-names-itself-{side}", place_left_out(kind, at))
      for kind in ("stone", "cell") for at, side in enumerate(("first", "second"))),
    Condition("GoesOver.first_full, by stone", "the first link is Full", "written/steps/stone-of-a-semi-link",
              and_rule("one.is_full and other.is_full", "other.is_full", "stone")),
    Condition("GoesOver.second_full, by stone", "and so is the second", "written/steps/stone-of-a-semi-link-second",
              and_rule("one.is_full and other.is_full", "one.is_full", "stone")),
    Condition("GoesOver.first_full, by cell", "the first link is Full", "written/steps/cell-of-a-semi-link-first",
              and_rule("one.is_full and other.is_full", "other.is_full", "cell")),
    Condition("GoesOver.second_full, by cell", "and so is the second", "written/steps/cell-of-a-semi-link-second",
              and_rule("one.is_full and other.is_full", "one.is_full", "cell")),
    Condition("GoesOver.first_ends, second_ends", "the two links have an end in common", "written/steps/links-without-a-common-end",
              [("    (between,) = shared\n", "    if not shared:\n        return Link(True, one.ends, one.carrier | other.carrier)\n"
                                             "    (between,) = shared\n"), ("len(shared) != 1", "len(shared) > 1")]),
    Condition("GoesOver.apart, by stone", "their carriers share no cell", "written/steps/carriers-that-overlap",
              and_rule(" or one.carrier & other.carrier", "", "stone")),
    Condition("GoesOver.apart, by cell", "their carriers share no cell", "written/steps/cell-of-carriers-that-overlap",
              and_rule(" or one.carrier & other.carrier", "", "cell")),
    Condition("GivesAndStone.own", "they meet at a stone or a side of the player", "written/steps/stone-over-an-empty-cell",
              [("return Link(True, ends, carrier) if has(graph.own, between) else None", "return Link(True, ends, carrier)")]),
    Condition("GivesAndCell.empty", "they meet at an empty cell", "written/steps/cell-over-a-stone",
              [("has(graph.empty & ~carrier, between)", "has(~carrier, between)")]),
    Condition("GivesAndCell.outside_first, outside_second", "which is in neither carrier", None,
              [("has(graph.empty & ~carrier, between)", "has(graph.empty, between)")],
              "it is an end of both links, and `IsLink.outside` refuses a link with an empty end in its carrier"),
    Condition("GivesOr.there", "the parts of an Or are earlier links", "written/steps/or-of-a-step-that-is-not-there",
              [("    elif any(place >= len(links)", "    elif kind != \"or\" and any(place >= len(links)"),
               ("[links[place] for place in values]", "[links[place] for place in values if place < len(links)]")]),
    Condition("GivesOr.several", "there are two parts at least", None,
              [("    if len(parts) < 2 or any(", "    if len(parts) < 1 or any(")],
              "a Semi link has a cell in its carrier, so with one part `none_in_all` fails too, and so it does with none"),
    Condition("GivesOr.few", "and at most 128", "written/steps/or-of-129-parts", [("if parts <= 128 else", "if parts <= 129 else")]),
    Condition("GivesOr.semi", "each part is Semi", "written/steps/or-of-two-bases",
              [("any(part.is_full or part.ends", "any(part.ends")]),
    Condition("GivesOr.same_ends", "all parts have the same ends", "written/steps/or-of-links-with-other-ends",
              [("any(part.is_full or part.ends != parts[0].ends for", "any(part.is_full for")]),
    Condition("GivesOr.none_in_all", "no cell is in the carriers of all parts", "written/steps/or-of-the-same-link-twice",
              [("if of_all == 0 else None", "if True else None")]),
    Condition(f"{LINK}.lower_first", "the ends of a link differ", "written/steps/base-of-one-vertex",
              [(IS_ON, IS_ON.replace("len(self.ends) == 2 and ", ""))]),
    Condition(f"{LINK}.a_end, b_end", "no end is a stone of the opponent", "written/steps/base-of-a-stone-of-the-opponent",
              [(IS_ON, IS_ON.replace("has(graph.open, end) and ", ""))]),
    Condition(f"{LINK}.outside", "no end is an empty cell of the carrier", "written/steps/empty-end-in-the-carrier",
              [(IS_ON, IS_ON.replace(" and not has(graph.empty & self.carrier, end)", ""))]),
]

LINKS = [
    Condition("AreRightLinks, GiveLinks.few", "a node by links has at most 8,192 steps", "made/long/a-step-too-many",
              [("\"links\": (up_to(8192),)", "\"links\": (up_to(8193),)")]),
    Condition("GiveLinks.right", "each step gives a link, also one that nothing needs", "written/links/unused-wrong-step",
              [("        if links[-1] is None:\n            return None\n",
                "        links[-1] = links[-1] or Link(False, frozenset((FIRST,)), 0)\n")]),
    Condition("AreRightLinks.is_last", "there is a last link", "written/links/no-steps",
              [(JOINS, "return links is not None and (not links or links[-1].joins_sides()) and"),
               ("(links[-1].is_full or heading", "(not links or links[-1].is_full or heading")]),
    Condition("AreRightLinks.joins, IsChainLink.first", "it ends at the first side", "written/links/last-link-joins-no-sides",
              [(JOINS, "return bool(links) and LAST in links[-1].ends and")]),
    Condition("AreRightLinks.joins, IsChainLink.last", "and at the last side", "written/links/an-earlier-link-joins-the-sides",
              [(JOINS, "return bool(links) and FIRST in links[-1].ends and")]),
    Condition("AreRightLinks.in_time", "it is Full, or the winner is to move", "written/links/semi-with-the-opponent-to-move",
              [("(links[-1].is_full or heading.mover == heading.winner)", "True")]),
]

MOVES = [
    Condition("IsRightMove.mover", "the winner is to move", "written/move/opponent-to-move", [(MOVE, "return (board.is_empty(cell)\n")]),
    Condition("IsRightMove.empty: no own stone", "the cell has no stone of the winner", "written/move/onto-an-own-stone",
              [(MOVE, "return (mover == winner and not has(board.of(OTHER[winner]), cell)\n")]),
    Condition("IsRightMove.empty: no stone of the opponent", "and none of the opponent", None,
              [(MOVE, "return (mover == winner and not has(board.of(winner), cell)\n")],
              "with both stones on the cell the child's position is none, and so no earlier node's"),
    *headings("IsRightMove.leads", "move", "self.is_there(child, board.put(winner, cell), OTHER[winner], winner)", [
        "written/move/child-comes-later", "written/move/child-has-one-stone-more", "written/move/child-has-the-same-mover",
        "written/move/child-with-another-winner-alone"], "the one after the move"),
]

ANSWERS = [
    Condition("IsRightAll.mover", "the opponent is to move", "written/threats/winner-to-move",
              [(ALL, ALL.replace("heading.mover == heading.winner or ", ""))]),
    Condition("IsRightAll.some_empty", "he has a move", "written/all/full-board", [(ALL, ALL.replace("not graph.empty or ", ""))]),
    Condition("IsRightAll.steps_right, GiveLinks.few", "a node by answers has at most 8,192 steps",
              "made/long/a-step-too-many-before-threats",
              [("\"all\": (up_to(8192),", "\"all\": (up_to(8193),")]),
    Condition("IsRightAll.steps_right, GiveLinks.right", "each step gives a link, also one that no threat needs",
              "written/threats/wrong-step-that-no-threat-needs",
              [("        if links[-1] is None:\n            return None\n",
                "        links[-1] = links[-1] or Link(False, frozenset((FIRST,)), 0)\n")]),
    Condition("AreThreats.few", "there are at most 128 threats", "written/threats/a-hundred-and-twenty-nine",
              [("(up_to(8192), up_to(128), up_to(121))", "(up_to(8192), up_to(129), up_to(121))")]),
    Condition("AreThreats.each: there", "a threat is the place of a link", "written/threats/one-more-that-is-not-there",
              [("            if place >= len(links) or not",
                "            if place >= len(links):\n                continue\n            if not")]),
    Condition("AreThreats.each, IsChainLink.first", "which ends at the first side", "written/threats/no-steps-are-threats",
              [("not links[place].joins_sides():", "LAST not in links[place].ends:")]),
    Condition("AreThreats.each, IsChainLink.last", "and at the last side", "written/threats/of-a-link-that-joins-no-sides",
              [("not links[place].joins_sides():", "FIRST not in links[place].ends:")]),
    Condition("AreInOrder.each", "each move that needs an answer has a line", "written/all/no-line-for-a-cell",
              [(CELLS, "if not {cell for cell, *_ in answers} <= set(members_of(to_answer)):")]),
    Condition("AreInOrder.only, IsToAnswer.empty", "a line answers an empty cell", "written/all/line-for-a-stone-of-the-opponent",
              [(CELLS, "if [one for one, *_ in answers if has(graph.empty, one)] != list(members_of(to_answer)):")]),
    Condition("AreInOrder.only, IsToAnswer.shared", "which is in the carriers of all threats",
              "written/threats/line-for-a-cell-outside-with-a-right-child",
              [(CELLS, "if [one for one, *_ in answers if has(to_answer | ~graph.empty, one)] != list(members_of(to_answer)):")]),
    Condition("AreInOrder.in_order: order", "the lines stand in cell order", "written/all/lines-out-of-cell-order",
              [(CELLS, "if sorted(cell for cell, *_ in answers) != list(members_of(to_answer)):")]),
    Condition("AreInOrder.in_order: once", "and no cell has two", "written/all/two-lines-for-one-cell",
              [(CELLS, "if list(dict.fromkeys(cell for cell, *_ in answers)) != list(members_of(to_answer)):")]),
    *headings("IsRightLine, Child", "all", "self.is_there(values[0], board.put(mover, cell), winner, winner)", [
        "written/all/child-is-not-there", "written/all/child-of-another-cell", "written/all/child-with-the-same-mover",
        "written/all/child-of-another-winner"], "the one after the opponent's move"),
    Condition("IsRightLine, Under", "the better cell has a child, or is outside a threat",
              "written/dominated/better-cells-inside-a-threat",
              [("return has(better_cells, values[0]) and", "return")]),
    Condition("IsDominated.better_empty", "the better cell is empty", "written/dominated/stone-outside-a-threat",
              [(DOMINATED, "    if False:\n"),
               ("with_child | graph.empty & ~to_answer", "with_child | ~to_answer")]),
    Condition("IsKilled by a dead cell, IsDead.joined", "the worse cell is dead for the other player", "written/dominated/not-dead",
              [("return is_dead(after, OTHER[mover], cell) if kind", "return True if kind")]),
    Condition("IsKilled by a captured pair, IsPair", "or one of a captured pair of the mover's",
              "written/dominated/pair-with-a-third-cell-that-is-none",
              [("else is_pair(after, mover, cell, *third)", "else True")]),
]

FILLS = [
    Condition("IsRightFill.some", "there is a fill step", "written/fill/no-steps-with-a-child-of-the-same-board",
              [("return len(fills) > 0 and self", "return self")]),
    Condition("MayFill, Other: no stone of the opponent", "a cell that is filled for the opponent has no stone of his",
              "written/fill/other-twice",
              [("if board.is_empty(*cells) else None", "if not has(board.of(winner), *cells) else None")]),
    Condition("MayFill, Other: no own stone", "and none of the winner", None,
              [("if board.is_empty(*cells) else None", "if not has(board.of(OTHER[winner]), *cells) else None")],
              "with both stones on the cell the child's position is none, and so no earlier node's"),
    Condition("MayFill, IsDead.empty", "a dead cell is empty", "written/fill/dead-stone",
              [("    return board.is_empty(cell) and all(\n", "    return all(\n")]),
    Condition("MayFill, IsDead.joined", "its open neighbours are joined with one another", "written/fill/not-dead",
              [("        neighbours & ~graph.joined_with(neighbour) == 0 for", "        True for")]),
    Condition("IsPair.a_dead", "the first cell of a captured pair is dead once the player has the second", "written/dominated/pair-with-a-third-cell-that-is-none",
              [(PAIR, PAIR.replace("is_dead(board.put(player, other), player, one) and ", ""))]),
    Condition("IsPair.b_dead", "and the second once the player has the first", "written/fill/cells-that-are-no-pair",
              [(PAIR, PAIR.replace(" and is_dead(board.put(player, one), player, other)", ""))]),
    *headings("IsRightFill.leads", "fill", "self.is_there(values[-1], board, mover, winner)", [
        "written/fill/child-is-not-there", "written/fill/child-has-one-stone-more", "written/fill/child-with-another-mover",
        "written/fill/child-with-another-winner"], "the one after all fill steps"),
]

TURNS = [
    Condition("IsRightTurn: slice_get before child", "the child is an earlier node", "written/turned/child-is-not-there",
              heading_left_out("self.is_there(values[0], turned, heading.mover, heading.winner)", None)),
    Condition("IsTurned.same_size", "its board has the same size", None, [], "a text has one size"),
    Condition("IsTurned.stones", "its stones stand on the turned cells", "written/turned/same-board",
              heading_left_out("self.is_there(values[0], turned, heading.mover, heading.winner)", 0)),
    Condition("IsTurnedHeading.same_mover", "the same player is to move", "written/turned/other-mover",
              heading_left_out("self.is_there(values[0], turned, heading.mover, heading.winner)", 1)),
    Condition("IsTurnedHeading.same_winner", "and wins", "written/turned/other-winner",
              heading_left_out("self.is_there(values[0], turned, heading.mover, heading.winner)", 2)),
]

RULES = {"A position": POSITIONS, "A chain": CHAINS, "A step": STEPS, "Links": LINKS, "A move": MOVES, "Answers": ANSWERS,
         "Fill steps": FILLS, "The turned position": TURNS}


# ---- What is tried

class Wrong(Exception):
    """A row that is not so."""


def checker(changes=()):
    """The checker, with these changes."""
    text = CHECKER.read_text(encoding="utf-8")
    for old, new in changes:
        if text.count(old) != 1:
            raise Wrong(f"`{old.strip()}` stands {text.count(old)} times in checkers/check.py")
        text = text.replace(old, new)
    module = types.ModuleType("checker")
    exec(compile(text, "check.py", "exec"), module.__dict__)  # the file of this repository, with one condition less
    return module


def accepts(module, text):
    """Whether it says yes. What cannot be judged without a condition is not accepted."""
    try:
        return module.answer_to(io.BytesIO(text))[0] == 0
    except (ValueError, IndexError, KeyError, TypeError, AttributeError):
        return False


def refused_cases():
    """The texts that are due to be refused, by their names."""
    found = {}
    for path in sorted(HERE.rglob("*.hextree")):
        if path.with_suffix(".answer").read_bytes().startswith(b"1\n") and path.stat().st_size < LARGEST:
            found[str(path.relative_to(HERE).with_suffix(""))] = path.read_bytes()
    return found


def tried(condition, cases):
    module = checker(condition.changes)
    if condition.case is None:
        found = [name for name, text in cases.items() if condition.changes and accepts(module, text)]
        if found:
            raise Wrong(f"is said to have no case, and {found[0]} fails by it alone")
    elif condition.case not in cases:
        raise Wrong(f"there is no case {condition.case} that is to be refused")
    elif not accepts(module, cases[condition.case]):
        raise Wrong(f"{condition.case} does not fail by it alone")


def wrong_rows():
    cases, right = refused_cases(), checker()
    for name in [name for name, text in cases.items() if accepts(right, text)]:
        yield f"{name} is accepted"
    for condition in (one for conditions in RULES.values() for one in conditions):
        try:
            tried(condition, cases)
        except Wrong as wrong:
            yield f"{condition.name}: {wrong}"


# ---- The table

def table():
    rows = []
    for rule, conditions in RULES.items():
        rows.append(f"| **{rule}** | | |")
        for name, words, case, _, why in conditions:
            rows.append(f"| {name} | {words} | {f'[{case}]({case}.hextree)' if case else 'none: ' + why} |")
    return HEAD + "\n".join(rows) + "\n"


def main():
    found = list(wrong_rows())
    if sys.argv[1:] != ["--check"]:
        TABLE.write_text(table(), encoding="utf-8")
    elif TABLE.read_text(encoding="utf-8") != table():
        found.append("conformance/conditions.md is not what conditions.py makes")
    for line in found:
        print(line)
    return 1 if found else 0


if __name__ == "__main__":
    sys.exit(main())
