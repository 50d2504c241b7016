"""Lists of moves that tools/hexpos reads."""
from drawn_boards.command import NO_SIZE, USAGE

from .positions import hexpos

# Lists of moves: words, the list, and the position behind them, drawn.
TWO = "  a b\n1 {} {}\n 2 {} {}\n{} to move\n"
MOVES = [
    (["--size", "2"], "a1 b2\n", TWO.format("b", ".", ".", "w", "black")),
    (["--size", "2", "2"], "A1, b2,b1", TWO.format("b", "b", ".", "w", "white")),
    (["--moves", "--size", "2"], "\n1. a1 b2\r\n2. b1\n", TWO.format("b", "b", ".", "w", "white")),
    (["--size", "2", "--first", "white"], "1.a1 2.b2 3.b1", TWO.format("w", "w", ".", "b", "black")),
    (["--first", "black", "--size", "2"], "1. a1", TWO.format("b", ".", ".", ".", "white")),
    (["--size", "2"], "a1b2b1", TWO.format("b", "b", ".", "w", "white")),
    (["--size", "2"], "1. a1b2 2. B1", TWO.format("b", "b", ".", "w", "white")),
    (["--size", "2", "--first", "white"], "a1b2\nb1", TWO.format("w", "w", ".", "b", "black")),
    (["--size", "11"], "k11a10", None),
    ([], "#2,a1b2b1", TWO.format("b", "b", ".", "w", "white")),
    ([], "#2,", TWO.format(".", ".", ".", ".", "black")),
    ([], "#2", TWO.format(".", ".", ".", ".", "black")),
    ([], "https://hexworld.org/board/#2nc1,a1b2b1\n", TWO.format("b", "b", ".", "w", "white")),
    ([], "\n hexworld.org/board/#2r10, a1 b2 b1\n", TWO.format("b", "b", ".", "w", "white")),
    (["--size", "2", "2"], "#2x2,a1\nb2b1", TWO.format("b", "b", ".", "w", "white")),
    (["--moves"], "#2,a1", TWO.format("b", ".", ".", ".", "white")),
    (["--size", "2"], "", TWO.format(".", ".", ".", ".", "black")),
    (["--empty", "2"], "not read", TWO.format(".", ".", ".", ".", "black")),
    (["--empty", "2", "2", "--first", "white"], "not read", TWO.format(".", ".", ".", ".", "white")),
    (["--first", "black", "--empty", "1", "3"], "not read", "  a b c\n1 . . .\nblack to move\n"),
    (["--size", "2", "--moves"], "", TWO.format(".", ".", ".", ".", "black")),
    (["--size", "2", "--first", "white", "--moves"], "\n", TWO.format(".", ".", ".", ".", "white")),
    (["--size", "1", "3"], "c1", "  a b c\n1 . . b\nwhite to move\n"),
    (["--size", "1", "11"], "k1, a1", "  a b c d e f g h i j k\n1 w . . . . . . . . . b\nblack to move\n"),
]

# Lists that are refused, and why.
NO_MOVES = [
    (["--size", "4"], "1. c4 swap\n",
     "line 1: move 2, swap, is refused: there is no swap here; write the game as it stands after it"),
    (["--size", "4"], "a1 swap-pieces\n",
     "line 1: move 2, swap-pieces, is refused: there is no swap here; write the game as it stands after it"),
    (["--size", "4"], "1. c4 b2\n2. Resign\n", "line 2: move 3, resign, is refused: it puts no stone; leave it out"),
    (["--size", "4"], "c4\nb2 c4\n", "line 2: move 3, c4, is refused: c4 has a black stone"),
    (["--size", "4"], "c4 b2 b2\n", "line 1: move 3, b2, is refused: b2 has a white stone"),
    (["--size", "4", "--first", "white"], "c4 c4\n", "line 1: move 2, c4, is refused: c4 has a white stone"),
    (["--size", "4"], "c4 d5\n", "line 1: move 2, d5, is refused: it is off the board, whose last cell is d4"),
    (["--size", "4", "3"], "d4\n", "line 1: move 1, d4, is refused: it is off the board, whose last cell is c4"),
    (["--size", "4"], "a1 z99\n", "line 1: move 2, z99, is refused: it is off the board, whose last cell is d4"),
    (["--size", "4"], "a1 a01\n", "line 1: expected move 2, a letter and a number as d4, came a01"),
    (["--size", "4"], "a1 pass\n", "line 1: move 2, pass, is refused: whoever is to move puts a stone"),
    ([], "#4,c4:sb2", "line 1: move 2, :s, is refused: there is no swap here; write the game as it stands after it"),
    ([], "https://hexworld.org/board/#4c1,c4:S\n",
     "line 1: move 2, :s, is refused: there is no swap here; write the game as it stands after it"),
    ([], "#4,c4:pb2", "line 1: move 2, :p, is refused: whoever is to move puts a stone"),
    ([], "#4,c4b2:rb", "line 1: move 3, :rb, is refused: it puts no stone; leave it out"),
    ([], "#4,c4b2:fw", "line 1: move 3, :fw, is refused: it puts no stone; leave it out"),
    ([], "#4,c4b2c4", "line 1: move 3, c4, is refused: c4 has a black stone"),
    ([], "#4,c4e1", "line 1: move 2, e1, is refused: it is off the board, whose last cell is d4"),
    ([], "#4,c4;b2", "line 1: expected move 1, a letter and a number as d4, came c4;b2"),
    ([], "#4,c4,b2",
     "line 1: expected one comma in an address, came two: behind the second may stand moves that were taken back"),
    ([], "#4x5,c4", "line 1: #4x5, has two numbers: write the moves alone, and --size ROWS COLUMNS"),
    ([], "\n#12,c4", "line 2: expected a board of 1 to 11 rows and columns, came 12"),
    ([], "#0,", "line 1: expected a board of 1 to 11 rows and columns, came 0"),
    ([], "#4s,c4", "line 1: expected n, c and a number, or r and a number behind #4, came s"),
    (["--size", "5"], "#4,c4", "line 1: #4, tells 4 rows and columns, and --size 5 5"),
    (["--size", "4"], "c4\nb2b2\n", "line 2: move 3, b2, is refused: b2 has a white stone"),
    (["--size", "4"], "a1\n;\n", "line 2: expected move 2, a letter and a number as d4, came ;"),
    (["--size", "4"], "a1 \0\n", "line 1: expected move 2, a letter and a number as d4, came \\x00"),
    (["--size", "2"], "  a b\n1 . .\n 2 . .\n", "line 1: expected move 1, a letter and a number as b2, came a"),
    (["--size", "4"], "2. a1\n", "line 1: expected 1. before move 1, came 2."),
    (["--size", "4"], "1. a1 3. b1\n", "line 1: expected 2. before move 2, came 3."),
    (["--size", "4"], "1. a1 b1\n4. c1\n", "line 2: expected 2. or 3. before move 3, came 4."),
]
NO_SIZES = [([], "a1 b2\n"), ([], "a1b2"), ([], "\n1. a1\n"), ([], "1.A1"), (["--moves"], "a1\n"), (["--moves"], "")]
BAD_MOVES_WORDS = [["--size"], ["--size", "0"], ["--size", "12"], ["--size", "2", "12"], ["--size", "02"],
                   ["--size", "2", "--size", "2"], ["--first", "red", "--size", "2"], ["--size", "2", "--first"],
                   ["--draw", "--size", "2"], ["--empty"], ["--empty", "0"], ["--empty", "12"],
                   ["--empty", "2", "--size", "2"], ["--size", "2", "--empty", "2"], ["--empty", "2", "x"],
                   ["--empty", "2", "--draw"], ["--empty", "2", "--moves"], ["--empty", "2", "2", "2"],
                   ["--template", "--first", "white"], ["--size", "2", "2", "2", "2"],
                   ["--size", "2", "--moves", "--moves"]]


def try_moves(trials):
    for words, source, drawn in MOVES:
        status, text, errors = hexpos(words, source)
        trials.want(f"the moves {source!r}", (0, ""), (status, errors))
        if drawn:
            trials.want(f"the moves {source!r}, drawn", (0, drawn, ""), hexpos(["--draw"], text))
    for words, source, told in NO_MOVES:
        trials.want(f"{words} and the moves {source!r}", (1, "", f"hexpos: {told}\n"), hexpos(words, source))
    for words, source in NO_SIZES:
        trials.want(f"{words} and {source!r}", (2, "", f"{NO_SIZE}\n"), hexpos(words, source))
    for words in BAD_MOVES_WORDS:
        trials.want(f"hexpos {words}", (2, "", f"{USAGE}\n"), hexpos(words, "a1\n"))


TRIED = (try_moves,)
