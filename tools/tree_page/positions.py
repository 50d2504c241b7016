"""Positions as the scripts read them, and the texts of those that come after them."""
from drawn_boards.boards import WrongLine
from drawn_boards.command import BadWords, position_in

from .records import check


class NoPosition(Exception):
    """The input is no position."""


class NoSize(NoPosition):
    """The input is a list of moves, and nothing tells its board."""


def read_position(content, size=None):
    """The board, the mover and the text of a position, in any form that tools/hexpos reads. A list of moves is one on a
    board of this size."""
    try:
        board, mover = position_in(content, size)
    except BadWords as wrong:
        raise NoSize(str(wrong).replace("hexpos: ", "", 1)) from None
    except WrongLine as wrong:
        raise NoPosition(str(wrong)) from None
    return board, mover, text_of(board, mover).encode()


def text_of(board, mover):
    return check.position_text(check.Heading(board, mover, mover))


def has_chain(board, player):
    return check.Graph(board, player).are_joined(check.FIRST, check.LAST)


def turned(board):
    return board._replace(black=board.size.turned(board.black), white=board.size.turned(board.white))
