"""What a drawing or a text tells: a position or a template, on a board as the checker in Python has it."""
from typing import NamedTuple, Tuple

from tree_page.records import check, name

MOST = 11  # rows, and columns
LONGEST = 40  # characters of a line or of a word that are shown where it is wrong


class WrongLine(Exception):
    """A line is not what is expected in its place."""

    def __init__(self, number, what):
        super().__init__(f"line {number}: {what}")


class Position(NamedTuple):
    board: check.Board
    mover: str


class Template(NamedTuple):
    board: check.Board
    owner: str
    kind: str
    ends: Tuple[str, str]
    carrier: int


def shown(text):
    """The front of what was read, in characters that a terminal shows as they are."""
    front = " ".join(text.split())[:LONGEST] or text
    return "".join(one if one.isprintable() else ascii(one)[1:-1] for one in front)


def cell_of(word, size):
    """The cell of this name, or nothing where the board has none."""
    return next((cell for cell in size.cells if name(cell) == word), None)


def lines_of(content):
    """The lines of what people write. A byte that is no UTF-8 stays a character of its own, to be refused where
    it stands."""
    lines = content.decode("utf-8", "surrogateescape").split("\n")
    return lines if lines[-1] else lines[:-1]
