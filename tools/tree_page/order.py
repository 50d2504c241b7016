"""In which order cells are asked for: near the middle of a board a move wins more often."""
from .records import check


def from_the_middle(board):
    """The empty cells, those first that are near to the middle of the board."""
    size = board.size

    def distance(cell):
        down, right = (2 * place - most + 1 for place, most in zip(divmod(cell, check.WIDTH),
                                                                   (size.rows, size.columns)))
        return down * down + down * right + right * right

    return sorted(check.members_of(board.empty()), key=distance)
