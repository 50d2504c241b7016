"""A board as tools/hexpos draws it, with marks on empty cells."""
from .records import LETTERS, check

# What each player joins.
JOINED = {"black": "the top with the bottom", "white": "the left with the right"}


def drawn(board, marks):
    """The rows of a board. A cell has its stone, or its mark where it has one, or a dot."""
    lines = ["  " + " ".join(LETTERS[:board.size.columns])]
    for row in range(board.size.rows):
        first = check.WIDTH * row
        shown = [mark_of(board, marks, first + column) for column in range(board.size.columns)]
        lines.append(" " * row + " ".join([str(row + 1), *shown]))
    return "\n".join(lines)


def mark_of(board, marks, cell):
    if board.is_empty(cell):
        return marks.get(cell, ".")
    return "b" if check.has(board.black, cell) else "w"
