"""Who wins a position, by trying each game to its end: the plain program that other scripts hold the built program
against.

Boards, and what is joined, are those of the checker in Python, which shares no code with the program."""
import functools

import check
from tree_page.positions import has_chain


@functools.cache
def size_of(rows, columns):
    return check.Size(rows, columns)


def board_of(rows, columns, black=0, white=0):
    return check.Board(size_of(rows, columns), black, white)


@functools.cache
def winner_of(board, mover):
    """Who wins with this player to move. Only on a board where nobody has a chain is there a move to try."""
    for player in check.OTHER:
        if has_chain(board, player):
            return player
    for cell in check.members_of(board.empty()):
        if winner_of(board.put(mover, cell), check.OTHER[mover]) == mover:
            return mover
    return check.OTHER[mover]


def drawn_board(draws, rows, columns, empty):
    """A board with so many empty cells, half of the others Black's."""
    cells = draws.sample(size_of(rows, columns).cells, rows * columns - empty)
    half = (len(cells) + draws.randrange(2)) // 2
    return board_of(rows, columns).put("black", *cells[:half]).put("white", *cells[half:])


def cell_name(cell):
    row, column = divmod(cell, check.WIDTH)
    return f"{'abcdefghijk'[column]}{row + 1}"


def names_a_move(tree):
    """Whether a tree's root is by a move; or need not be, where the other player wins, or a chain decides, at once or
    after fill steps."""
    nodes = [words for words in map(str.split, tree.decode().splitlines()) if words[0] == "node"]
    mover, winner, rule = nodes[-1][3:6]
    last = nodes[-1]
    while last[5] == "fill":
        last = nodes[int(last[7])]
    return rule == "move" or mover != winner or last[5] == "chain"
