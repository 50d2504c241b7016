"""What the page asks, read from JSON: each value is looked at, and what is not expected is refused in a sentence."""
import json

from drawn_boards.boards import MOST, Position, Template, cell_of
from tree_page.records import check

COLOURS = ("black", "white")
SIDES = ("first", "last")
MARKS = ("+", "-", "?", "*")
OPTIONS = {"workers": (1, 64), "budget": (0, 1_099_511_627_776), "proofs": (0, 1_048_576)}


class WrongRequest(Exception):
    """What was asked is not of the form that it should have."""


def require(is_so, what):
    if not is_so:
        raise WrongRequest(f"expected {what}")


def object_of(content):
    try:
        found = json.loads(content.decode())
    except (ValueError, RecursionError):
        raise WrongRequest("expected JSON") from None
    require(isinstance(found, dict), "an object")
    return found


def number_in(asked, key, least, most):
    value = asked.get(key)
    require(type(value) is int and least <= value <= most, f"{key} from {least} to {most}")
    return value


def word_in(asked, key, words):
    value = asked.get(key)
    require(isinstance(value, str) and value in words, f"{key}, one of {', '.join(words)}")
    return value


def text_in(asked, key):
    value = asked.get(key)
    require(isinstance(value, str), f"{key}, a text")
    return value


def size_in(asked):
    return check.Size(number_in(asked, "rows", 1, MOST), number_in(asked, "columns", 1, MOST))


def cell_in(word, size):
    cell = cell_of(word, size) if isinstance(word, str) else None
    require(cell is not None, "cells of the board")
    return cell


def cells_in(asked, key, size):
    """A set of cells, from a list of their names."""
    value = asked.get(key)
    require(isinstance(value, list), f"{key}, a list of cells")
    cells = [cell_in(word, size) for word in value]
    require(len(set(cells)) == len(cells), f"each cell of {key} once")
    return sum(map(check.only, cells))


def board_in(asked):
    size = size_in(asked)
    board = check.Board(size, cells_in(asked, "black", size), cells_in(asked, "white", size))
    require(not board.black & board.white, "one stone on a cell")
    return board


def position_in(asked):
    return Position(board_in(asked), word_in(asked, "mover", COLOURS))


def template_in(asked):
    board, owner = board_in(asked), word_in(asked, "owner", COLOURS)
    carrier, ends = cells_in(asked, "carrier", board.size), asked.get("ends")
    require(isinstance(ends, list) and len(ends) == 2 and ends[0] != ends[1], "two ends that differ")
    cells = sum(check.only(cell_in(end, board.size)) for end in ends if end not in SIDES)
    require(not cells & board.of(check.OTHER[owner]), "ends without a stone of the other player")
    require(not carrier & ~board.empty() and not carrier & cells, "a carrier of empty cells that are no ends")
    return Template(board, owner, word_in(asked, "kind", ("full", "semi")), tuple(ends), carrier)


def marks_in(asked, size):
    """The mark of each cell that has one."""
    value = asked.get("marks", {})
    require(isinstance(value, dict) and all(isinstance(mark, str) and mark in MARKS for mark in value.values()),
            "marks of cells")
    return {cell_in(word, size): mark for word, mark in value.items()}


def options_in(asked):
    """The words of the options, which are numbers within their limits and so nothing else on a command line."""
    value = asked.get("options", {})
    require(isinstance(value, dict) and set(value) <= set(OPTIONS), f"options of {', '.join(OPTIONS)}")
    return {key: number_in(value, key, *OPTIONS[key]) for key in value}


def moves_in(asked, size):
    value = asked.get("moves")
    require(isinstance(value, list) and len(value) <= MOST * MOST, "a list of moves")
    for word in value:
        cell_in(word, size)
    return value
