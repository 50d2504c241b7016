"""A list of moves as players write it, read as the position behind the last one.

Words are parted by blanks, commas and ends of lines, and moves may stand in one word, as HexWorld packs them:
`b2c2b3c3`. A number with a dot may stand before a move, where it counts the moves, or each two of them: `1. c4 b2 2.
d3` is read, and so is `1. c4 2. b2 3. d3`. Another number is refused, since a move may be missing there.

In front of the moves may stand what tells the board in an address of HexWorld, or the whole address: `#4,` or
`#11nc1,`, a number of rows and columns and how the board is shown. HexWorld's Red is Black here."""
import re

from drawn_boards.boards import MOST, Position, WrongLine, cell_of, lines_of, shown
from tree_page.records import check, name

# An address up to its comma: what stands before the `#`, the size, and how the board is shown.
HEAD = re.compile(r"[ \t\r\n]*[^\s#]*#([0-9]+)(?:x([0-9]+))?([a-z0-9]*)(?:,|(?=\s|$))", re.I)
VIEW = re.compile("(?:n|[cr][0-9]+)*", re.I)  # no swap is offered; coordinates; rotation
# How the first line of a list begins that holds anything. No row of a board does: behind its letters there is no digit.
BEGINNING = re.compile(r"[ \t\r\n,]*(?:[0-9]+\.[ \t\r]*)?[A-Ka-k][0-9]")
WORD = re.compile(r"(?:([0-9]+)\.)?(.*)", re.S)
# Moves in one word, and what HexWorld writes in place of a move, behind a colon.
PACKED = re.compile(r"(?:[a-z][0-9]+|:[sp]|:[rf][bw]?)+", re.I)
PART = re.compile(r"[a-z][0-9]+|:[sp]|:[rf][bw]?", re.I)
REFUSED = {
    "s": "there is no swap here; write the game as it stands after it",
    "r": "it puts no stone; leave it out",
    "p": "whoever is to move puts a stone",
}


def is_list(content):
    return has_head(content) or BEGINNING.match(content.decode("latin-1")) is not None


def has_head(content):
    """Whether it begins as an address of HexWorld, which tells its board."""
    return HEAD.match(content.decode("latin-1")) is not None


class Game:
    """The moves so far, of two players who take turns."""

    def __init__(self, size, first):
        self.board, self.mover, self.count, self.number = check.Board(size, 0, 0), first, 0, 0

    def take(self, word):
        number, rest = WORD.fullmatch(word).groups()
        if number:
            self.want_number(number)
        for part in PART.findall(rest) if PACKED.fullmatch(rest) else [rest] if rest or not number else []:
            self.play(part.lower())

    def want_number(self, number):
        expected = [str(self.count + 1)]
        if self.count % 2 == 0:
            expected.append(str(self.count // 2 + 1))
        if number not in expected:
            wanted = ". or ".join(sorted(set(expected), key=int))
            raise WrongLine(self.number, f"expected {wanted}. before move {self.count + 1}, came {shown(number)}.")

    def play(self, word):
        self.count += 1
        cell = cell_of(word, self.board.size)
        if cell is None or not self.board.is_empty(cell):
            raise WrongLine(self.number, self.why_not(word, cell))
        self.board, self.mover = self.board.put(self.mover, cell), check.OTHER[self.mover]

    def why_not(self, word, cell):
        """A sentence that names the move which is refused."""
        size, refused = self.board.size, f"move {self.count}, {shown(word)}, is refused:"
        if cell is not None:
            return f"{refused} {word} has a {'black' if check.has(self.board.black, cell) else 'white'} stone"
        if re.fullmatch("[a-z][1-9][0-9]*", word):
            return f"{refused} it is off the board, whose last cell is {name(size.cells[-1])}"
        kind = kind_refused(word)
        if kind:
            return f"{refused} {REFUSED[kind]}"
        return f"expected move {self.count}, a letter and a number as {name(size.cells[-1])}, came {shown(word)}"


def kind_refused(word):
    """Of what is no move the kind, where it is known: a swap, the end of a game (resigned or forfeited), or a pass."""
    found = re.fullmatch("(swap).*|(resign)|(pass)|:([sp]|[rf][bw]?)", word)
    return found and next(filter(None, found.groups()))[0].replace("f", "r")


def read_head(content, size):
    """The size that an address tells, or else this one, and the content behind what tells it."""
    found = HEAD.match(content.decode("latin-1"))
    if not found:
        return size, content
    front, (rows, columns, view) = found[0], found.groups()
    number = front.count("\n") + (0 if front.endswith("\n") else 1)
    told = shown(front)
    if columns not in (None, rows):
        raise WrongLine(number, f"{told} has two numbers: write the moves alone, and --size ROWS COLUMNS")
    if not 1 <= int(rows[:4]) <= MOST:
        raise WrongLine(number, f"expected a board of 1 to {MOST} rows and columns, came {shown(rows)}")
    if not VIEW.fullmatch(view):
        raise WrongLine(number, f"expected n, c and a number, or r and a number behind #{rows}, came {shown(view)}")
    if size and (size.rows, size.columns) != (int(rows), int(rows)):
        raise WrongLine(number, f"{told} tells {rows} rows and columns, and --size {size.rows} {size.columns}")
    behind = content[len(front):]
    if b"," in behind.partition(b"\n")[0]:
        told = "expected one comma in an address, came two: behind the second may stand moves that were taken back"
        raise WrongLine(number, told)
    return check.Size(int(rows), int(rows)), b"\n" * (number - 1) + behind


def read_moves(content, size, first):
    """The size may be missing where an address tells it."""
    size, content = read_head(content, size)
    game = Game(size, first)
    for game.number, line in enumerate(lines_of(content), 1):
        for word in re.findall("[^ \t\r,]+", line):
            game.take(word)
    return Position(game.board, game.mover)
