"""The questions that the page asks. Each is a generator: it asks for a run of the program and is given back the run
that has ended.

What is told of a question is a dictionary, which the page shows. A winner is told only where `hx check` accepted the
tree, with the position that was asked."""
import re
from typing import Any, NamedTuple

from drawn_boards.boards import Position
from drawn_boards.texts import text_of
from tree_page.order import from_the_middle
from tree_page.positions import has_chain
from tree_page.records import cell_of, check, name

from .runs import file_of
from .trees import Tree, move_told, winner_told

OPEN = 3  # the status of `hx solve` where it leaves open who wins


class NoAnswer(Exception):
    """The program cannot answer."""


class Needed(NamedTuple):
    """A run that a question needs: its words, and the file that it reads."""
    words: Any
    source: Any


class Found(NamedTuple):
    """Who wins by a tree that was accepted, or what ran out."""
    winner: str
    tree: Any
    why_open: str


# ---- Steps

def ended(words, source):
    """The run with these words, once it has ended."""
    run = yield Needed(words, source)
    return run


def solved(tell, position, options):
    """Who wins, by a tree that `hx check` accepted."""
    tell(doing="solve")
    run = yield from ended(["solve", *options], file_of(text_of(position).encode()))
    if run.status == OPEN:
        return Found("", None, run.answer())
    want_status(run, 0)
    winner = winner_told(run.output)
    tell(doing="check")
    judged = yield from ended(["check"], run.output)
    if judged.written().decode() != f"yes {winner}\n{text_of(position)}":
        raise NoAnswer(f"hx check does not accept the tree: it says {judged.answer()!r}")
    return Found(winner, Tree(run.output, len(run.written()), position), "")


def want_status(run, *statuses):
    if run.status not in statuses:
        raise NoAnswer(f"hx {run.words[0]} ended with status {run.status} and the answer {run.answer()!r}")


def words_of(options, keys=("workers", "budget", "proofs")):
    return [f"--{key}={options[key]}" for key in keys if key in options]


def open_told(why_open):
    """What ran out, and which option to raise."""
    found = re.fullmatch("unknown (budget|proofs) ([0-9]+)", why_open)
    if not found:
        raise NoAnswer(f"hx solve says {why_open!r}")
    return {"open": found[1], "most": int(found[2]), "raise": f"--{found[1]}"}


def chain_told(board):
    """Who has a chain already, where somebody has."""
    return next((player for player in check.OTHER if has_chain(board, player)), "")


# ---- Who wins?

def who(desk, number, tell, position, options):
    found = yield from solved(tell, position, words_of(options))
    if not found.winner:
        return open_told(found.why_open)
    desk.trees.keep(number, found.tree)
    return {"winner": found.winner, "chain": chain_told(position.board), "tree": number,
            "move": (yield from winning_move(tell, found, position, options))}


def winning_move(tell, found, position, options):
    """The move by which the mover wins. Where the tree tells none, a plain tree does, by which `hx play` plays."""
    if found.winner != position.mover or chain_told(position.board):
        return ""
    move = move_told(found.tree.content(), position.board.size)
    if move:
        return move
    plain = yield from solved(tell, position, ["--plain-tree", *words_of(options, ("budget", "proofs"))])
    if not plain.winner:
        return ""
    answers, _ = yield from played(tell, plain.tree, [])
    return answers[0] if answers else ""


# ---- Which moves win?

def moves(desk, number, tell, position, options):
    board, mover = position
    marks = Marks(board)
    tell(marks=marks.by_name, left=len(marks.left()))
    told = yield from who(desk, number, tell, position, options)
    if told.get("chain"):
        return told
    if told.get("winner") == check.OTHER[mover]:
        marks.put_all("-")
    elif told.get("move"):
        marks.put(cell_of(told["move"]), "+")
    while marks.left():
        cell = marks.left()[0]
        tell(marks=marks.by_name, left=len(marks.left()), cell=name(cell))
        found = yield from solved(tell, Position(board.put(mover, cell), check.OTHER[mover]), words_of(options))
        marks.put(cell, "+" if found.winner == mover else "-" if found.winner else "?")
        if not found.winner:
            told = {**open_told(found.why_open), **told}
        close(found)
    tell(marks=marks.by_name, left=0, cell="")
    return {**told, "winner": marks.winner(mover) or told.get("winner", "")}


def close(found):
    if found.tree:
        found.tree.file.close()


class Marks:
    """What was found of each empty cell. Where the position is its own turn, a cell has the mark of its turn."""

    def __init__(self, board):
        self.size, self.cells, self.by_name = board.size, from_the_middle(board), {}
        self.is_own_turn = all(board.size.turned(board.of(player)) == board.of(player) for player in check.OTHER)

    def left(self):
        return [cell for cell in self.cells if name(cell) not in self.by_name]

    def put(self, cell, mark):
        cells = check.only(cell)
        for one in check.members_of(cells | (self.size.turned(cells) if self.is_own_turn else 0)):
            self.by_name[name(one)] = mark

    def put_all(self, mark):
        self.by_name.update((name(cell), mark) for cell in self.cells)

    def winner(self, mover):
        """Who wins by the marks of all cells, where they tell it."""
        if "+" in self.by_name.values():
            return mover
        return "" if "?" in self.by_name.values() else check.OTHER[mover]


# ---- Play against it

def plain(desk, number, tell, position, options):
    """A tree to play by, and the winner's first move where he is to move."""
    found = yield from solved(tell, position, ["--plain-tree", *words_of(options, ("budget", "proofs"))])
    if not found.winner:
        return open_told(found.why_open)
    desk.trees.keep(number, found.tree)
    answers, is_over = yield from played(tell, found.tree, [])
    return {"winner": found.winner, "tree": number, "answers": answers, "over": is_over}


def play(desk, number, tell, tree, of_loser):
    """The winner's answers to these moves of the loser's."""
    answers, is_over = yield from played(tell, tree, of_loser)
    return {"answers": answers, "over": is_over}


def played(tell, tree, of_loser):
    """The moves of the tree's winner, and whether he has a chain."""
    tell(doing="play")
    run = yield from ended(["play"], tree.with_moves(of_loser))
    want_status(run, 0, 1)
    lines = run.written().decode("latin-1").splitlines() or [""]
    if lines[0] not in ("play black", "play white") or lines[-1] not in ("chain", "unfinished") or "? illegal" in lines:
        raise NoAnswer(f"hx play says {' '.join(lines)!r}")
    return lines[1:-1], lines[-1] == "chain"


# ---- Is this pattern safe?

def pattern(desk, number, tell, template):
    tell(doing="template")
    run = yield from ended(["template"], file_of(text_of(template).encode()))
    want_status(run, 0, 1, OPEN)
    return {"safe": run.answer().partition(" ")[0], "cells": bin(template.carrier).count("1")}
