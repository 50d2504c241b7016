"""A drawn board, read as the position or the template that it shows.

Blanks and empty lines count for nothing, and small and capital letters are the same. Two forms of rows are read: the
cells, with the number of the row before them or not; and, as the programs MoHex and Wolve print a board, the number,
a backslash, the cells, a backslash and the number again."""
import re
import string

from drawn_boards.boards import MOST, Position, Template, WrongLine, cell_of, lines_of, shown
from tree_page.records import LETTERS, check

# How a cell may be written, by how `hexpos --draw` draws it.
SPELLINGS = {".": ".+_-", "b": "bxr\u25cf", "w": "wo\u25cb"}
STONES = {spelling: stone for stone, spellings in SPELLINGS.items() for spelling in spellings}
# Of ASCII alone: other capital letters are no spelling of anything.
SMALL = str.maketrans(string.ascii_uppercase, string.ascii_lowercase)
MOVER = re.compile("(black|white|red|blue)to(?:move|play)")
NAMES = {"red": "black", "blue": "white"}  # of the players, as HexWorld has them
TEXT = re.compile(rb"hex(pos|template) ")
HASH = re.compile("(?:0x)?(?=[a-f]*[0-9])[0-9a-f]{16}")  # no row is as long

TERMS = {
    "owner": ("owner black, or owner white", "owner[ \t]+(?:black|white)"),
    "kind": ("kind full, or kind semi", "kind[ \t]+(?:full|semi)"),
    "ends": ("ends and two of them, each a cell of the board, first or last", "ends[ \t]+[^ \t]+[ \t]+[^ \t]+"),
}


class Drawing:
    """What was read so far, line by line."""

    def __init__(self, stones, told):
        self.stones, self.told = stones, told
        self.number, self.line, self.columns, self.rows, self.is_closed = 0, "", 0, [], False
        self.spelled = set()  # how the cells so far are written

    def wrong(self, expected, came=None):
        return WrongLine(self.number, f"expected {expected}, came {shown(self.line) if came is None else came}")

    def take_all(self, content):
        text = TEXT.match(content)
        if text:
            raise WrongLine(1, f"this is a {'position' if text[1] == b'pos' else 'template'}'s text already")
        for self.number, self.line in enumerate(lines_of(content), 1):
            self.take(self.line.translate(SMALL).replace("\r", ""))
        self.number += 1
        if not self.rows:
            raise self.wrong("a row of the board", "none")

    def take(self, line):
        line = re.sub("^=[0-9]*", "", line) if self.number == 1 else line  # so begins a reply in GTP
        squeezed = re.sub("[ \t]", "", line)
        if squeezed:
            self.take_squeezed(squeezed)

    def take_squeezed(self, line):
        if not self.rows and HASH.fullmatch(line):
            return
        if line.startswith("a"):
            self.take_letters(line)
        else:
            self.take_row(line)

    def take_letters(self, line):
        """They stand above the rows, and may stand below them too."""
        if not self.columns:
            if not LETTERS.startswith(line):
                raise self.wrong("the letters of the columns, a b c .., at most to k")
            self.columns = len(line)
            return
        if not self.rows or self.is_closed:
            raise self.wrong("a row of the board" if not self.rows else "no letters of the columns more")
        if line != LETTERS[:self.columns]:
            raise self.wrong(f"the letters of {self.columns} columns, as above")
        self.is_closed = True

    def take_row(self, line):
        row = len(self.rows) + 1
        if self.is_closed:
            raise self.wrong("no row below the letters of the columns")
        if row > MOST:
            raise self.wrong(f"at most {MOST} rows", "one more")
        number, cells = re.fullmatch("([0-9]*)(.*)", line, re.S).groups()
        if number not in ("", str(row)):
            raise self.wrong(f"row {row}", f"the number {number}")
        if cells.startswith("\\"):
            cells = self.between_marks(number, cells, row)
        self.want_cells(cells, row)
        self.columns = len(cells)
        self.spelled |= set(cells)
        if {"r", "b"} <= self.spelled:
            raise self.wrong("no b beside r, since b may be Blue's stone, which is w here", "both")
        self.rows.append([self.stones[cell] for cell in cells])

    def between_marks(self, number, cells, row):
        behind = f"\\{row}"
        if not number:
            raise self.wrong(f"the number {row} before \\")
        if not cells.endswith(behind):
            raise self.wrong(f"{behind} behind the cells of row {row}")
        return cells[1:-len(behind)]

    def want_cells(self, cells, row):
        for place, cell in enumerate(cells, 1):
            if cell not in self.stones:
                raise self.wrong(f"{self.told} as cell {place} of row {row}", shown(cell))
        if not 1 <= len(cells) <= MOST:
            raise self.wrong(f"from 1 to {MOST} cells of row {row}", len(cells))
        if self.columns and len(cells) != self.columns:
            raise self.wrong(f"the {self.columns} cell{'s' if self.columns > 1 else ''} of row {row}", len(cells))

    def cells_with(self, stone):
        return sum(check.only(check.WIDTH * row + column) for row, cells in enumerate(self.rows)
                   for column, cell in enumerate(cells) if cell == stone)

    def board(self):
        return check.Board(check.Size(len(self.rows), self.columns), self.cells_with("b"), self.cells_with("w"))


# ---- Positions

class DrawnPosition(Drawing):
    """Behind the rows a line may tell who is to move."""

    def __init__(self):
        super().__init__(STONES, "., b or w")
        self.mover = None

    def take_squeezed(self, line):
        if self.mover:
            raise self.wrong("nothing behind who is to move")
        found = MOVER.fullmatch(line)
        if found and self.rows:
            self.mover = NAMES.get(found[1], found[1])
        elif found:
            raise self.wrong("a row of the board")
        elif self.is_no_row(line):
            raise self.wrong("black to move or white to move")
        else:
            super().take_squeezed(line)

    def is_no_row(self, line):
        """Whether a line below the rows is neither a row nor the letters of the columns: no row is due below a whole
        board, and none has a word of letters that are no stones."""
        is_row = line[0].isdigit() or "\\" in line or all(cell in self.stones for cell in line)
        if not self.rows or is_row or LETTERS.startswith(line):
            return False
        is_whole = self.is_closed or len(self.rows) >= self.columns
        return is_whole or len(line) != self.columns and any(re.search("[A-Za-z]{2}", word)
                                                             for word in self.line.split())

    def mover_by_stones(self):
        """Who is to move in a game that Black began. Other numbers of stones come only of positions that are made up,
        and a guess would be wrong half the time."""
        black, white = (sum(cells.count(stone) for cells in self.rows) for stone in "bw")
        if black - white not in (0, 1):
            raise self.wrong(f"black to move, or white to move, since {black} black and {white} white stones do not "
                             "tell it", "nothing")
        return "black" if black == white else "white"


def read_position(content):
    drawing = DrawnPosition()
    drawing.take_all(content)
    return Position(drawing.board(), drawing.mover or drawing.mover_by_stones())


# ---- Templates

class DrawnTemplate(Drawing):
    """Three lines in any place tell what the template is about."""

    def __init__(self):
        super().__init__({**STONES, "*": "*"}, "., *, b or w")
        self.terms, self.places = {}, {}

    def take(self, line):
        words = line.split()
        if words and words[0] in TERMS:
            self.take_term(words[0], line.strip())
        else:
            super().take(line)

    def take_term(self, term, line):
        expected, form = TERMS[term]
        if term in self.terms:
            raise self.wrong(f"one line with {term}", "another one")
        if not re.fullmatch(form, line):
            raise self.wrong(expected)
        self.terms[term], self.places[term] = line.split()[1:], self.number

    def take_squeezed(self, line):
        if MOVER.fullmatch(line):
            raise self.wrong("owner, kind and ends of a template")
        super().take_squeezed(line)

    def want_end(self, end, board):
        if end in ("first", "last"):
            return
        cell = cell_of(end, board.size)
        if cell is None:
            raise self.wrong(TERMS["ends"][0], end)
        owner, = self.terms["owner"]
        if check.has(board.of(check.OTHER[owner]), cell):
            raise self.wrong("ends without a stone of the other player", end)
        if check.has(self.cells_with("*"), cell):
            raise self.wrong("ends that are no cells of the carrier", end)

    def want_ends(self, board):
        self.number = self.places["ends"]
        one, other = self.terms["ends"]
        self.want_end(one, board)
        self.want_end(other, board)
        if one == other:
            raise self.wrong("two ends that differ", f"{one} {other}")


def read_template(content):
    drawing = DrawnTemplate()
    drawing.take_all(content)
    for term, (expected, _) in TERMS.items():
        if term not in drawing.terms:
            raise drawing.wrong(f"a line: {expected}", "none")
    board = drawing.board()
    drawing.want_ends(board)
    (owner,), (kind,), ends = (drawing.terms[term] for term in TERMS)
    return Template(board, owner, kind, tuple(ends), drawing.cells_with("*"))
