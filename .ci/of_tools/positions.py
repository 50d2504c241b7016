"""Positions that tools/hexpos reads and draws, and the words that it is given."""
import pathlib
import re
import tempfile

from drawn_boards.command import NO_SIZE, USAGE, ended
from shared import EXAMPLES, TOP
from shared.trials import run

EMPTY = "0" * 32

# Drawn boards, and what standard error says of them.
NO_BOARDS = [
    ("", "line 1: expected a row of the board, came none"),
    ("\n  \n", "line 3: expected a row of the board, came none"),
    ("  a b\n", "line 2: expected a row of the board, came none"),
    ("black to move\n", "line 1: expected a row of the board, came black to move"),
    ("  a c\n1 . .\n", "line 1: expected the letters of the columns, a b c .., at most to k, came a c"),
    (" a b c d e f g h i j k l\n",
     "line 1: expected the letters of the columns, a b c .., at most to k, came a b c d e f g h i j k l"),
    ("a\na\n", "line 2: expected a row of the board, came a"),
    (". .\na b c\n", "line 2: expected the letters of 2 columns, as above, came a b c"),
    (". .\na b\na b\n", "line 3: expected no letters of the columns more, came a b"),
    (". .\na b\n. .\n", "line 3: expected no row below the letters of the columns, came . ."),
    ("a b\n1 . .\n 2 . z\n", "line 3: expected ., b or w as cell 2 of row 2, came z"),
    (". \u25cf\n. \u25d0\n", "line 2: expected ., b or w as cell 2 of row 2, came \u25d0"),
    (". \udce2\udc97\n", "line 1: expected ., b or w as cell 2 of row 1, came \\udce2"),
    (". \0\n", "line 1: expected ., b or w as cell 2 of row 1, came \\x00"),
    (". \u212a\n", "line 1: expected ., b or w as cell 2 of row 1, came \u212a"),
    (". .\n .\n", "line 2: expected the 2 cells of row 2, came 1"),
    ("a b c d\n1 . . . .\n2 . . .\n", "line 3: expected the 4 cells of row 2, came 3"),
    ("  a b\n1 . . .\n", "line 2: expected the 2 cells of row 1, came 3"),
    ("1\n", "line 1: expected from 1 to 11 cells of row 1, came 0"),
    ("." * 12 + "\n", "line 1: expected from 1 to 11 cells of row 1, came 12"),
    ("b" * 16 + "\n", "line 1: expected from 1 to 11 cells of row 1, came 16"),
    ("1 .\n3 .\n", "line 2: expected row 2, came the number 3"),
    ("01 .\n", "line 1: expected row 1, came the number 01"),
    (".\n" * 12, "line 12: expected at most 11 rows, came one more"),
    (". .\nblack to move\nwhite to move\n", "line 3: expected nothing behind who is to move, came white to move"),
    (". .\nblack to win\n", "line 2: expected black to move or white to move, came black to win"),
    (". . .\nBlack's turn\n", "line 2: expected black to move or white to move, came Black's turn"),
    (". .\n. .\n? ?\n", "line 3: expected black to move or white to move, came ? ?"),
    (". .\na b\nand so on\n", "line 3: expected black to move or white to move, came and so on"),
    (". .\n. z\n", "line 2: expected ., b or w as cell 2 of row 2, came z"),
    ("r b\n", "line 1: expected no b beside r, since b may be Blue's stone, which is w here, came both"),
    ("r .\n. b\n", "line 2: expected no b beside r, since b may be Blue's stone, which is w here, came both"),
    ("hexpos 1\nsize 1 1\n", "line 1: this is a position's text already"),
    ("hextemplate 1\n", "line 1: this is a template's text already"),
    ("b .\n. b\n",
     "line 3: expected black to move, or white to move, since 2 black and 0 white stones do not tell it, came nothing"),
    ("w\n", "line 2: expected black to move, or white to move, since 0 black and 1 white stones do not tell it, came "
            "nothing"),
    ("\\. .\\1\n", "line 1: expected the number 1 before \\, came \\. .\\1"),
    ("1\\. .\n", "line 1: expected \\1 behind the cells of row 1, came 1\\. ."),
    ("1\\. .\\1\n2\\. .\\1\n", "line 2: expected \\2 behind the cells of row 2, came 2\\. .\\1"),
    ("1\\.  .\\1\n2\\.\\2\n", "line 2: expected the 2 cells of row 2, came 1"),
    ("1 . .\\1\n", "line 1: expected ., b or w as cell 3 of row 1, came \\"),
    (". .\n00112233445566ff\n", "line 2: expected row 2, came the number 00112233445566"),
]

# Ways to draw examples/bridge-to-the-edge.hexpos. The second is the one that tools/README.md shows.
PRINTED = """  a  b  c  d
1\\.  B  .  .\\1
 2\\.  B  W  B\\2
  3\\W  B  W  .\\3
   4\\.  .  .  .\\4
      a  b  c  d
"""
WAYS = [
    "  A B C D\n1 . B . .\n 2 . B W B\n  3 W B W .\n   4 . . . .\nWhite to move\n",
    PRINTED,
    f"= \n00112233445566ff\n{PRINTED}\n",
    f"=12 0x{'0' * 16}\n{PRINTED.partition(chr(10))[2]}White To Play",
    f"abcdefabcdef0123\n{PRINTED.upper()}",
    ". x . .\n . x o x\n  o x o .\n   . . . .\nwhite to play\n",
    "- r - -\n - r w r\n  w r w -\n   - - - -\nwhite to move\n",
    ". R . .\n - R w X\n  w R w .\n   . . - .\nBlue to move\n",
    "+ X + +\n_ X O X\nO X O _\n_ + . _\nWhite to play\n",
    ". \u25cf . .\n . \u25cf \u25cb \u25cf\n  \u25cb \u25cf \u25cb .\n   . . . .\n   a b c d\n",
    ".b..\n.\u25cfO\u25cf\nwxo+\r\n1...\n".replace("1...", "4____"),
]

# Texts of a position of two cells in a row, in its lines and with these changes.
POSITION = ["hexpos 1\n", "size 1 2\n", f"black {EMPTY[1:]}1\n", f"white {EMPTY[1:]}2\n", "move black\n"]
WANTED = ["hexpos 1, or hextemplate 1", "size ROWS COLUMNS, from 1 to 11", "black MASK, of cells on the board",
          "white MASK, of cells on the board without a black stone", "move black, or move white", "no line more"]
CHANGES = [
    (1, ""), (1, "hexpos 2\n"), (1, "hexpos 1\r\n"), (1, "hexpos 1\0\n"), (1, "hexpos 1"), (1, " hexpos 1\n"),
    (2, "size 1\n"), (2, "size 0 2\n"), (2, "size 01 2\n"), (2, "size 1 12\n"), (2, "size 1  2\n"), (2, "size 1 2 \n"),
    (3, f"black {EMPTY}1\n"), (3, f"black {EMPTY[1:]}\n"), (3, f"black {EMPTY[1:]}4\n"), (3, f"black {EMPTY[3:]}800\n"),
    (3, f"black {EMPTY[1:]}A\n"), (3, f"white {EMPTY}\n"), (4, f"white {EMPTY[1:]}3\n"), (4, f"white 8{EMPTY[1:]}\n"),
    (5, "move\n"), (5, "move green\n"), (5, "move black"), (6, "\n"), (6, "."), (6, "move black\n"),
]


def hexpos(words, source=""):
    """What run() gives of tools/hexpos, in this process: Python starts longer than it reads."""
    return ended(words, lambda path: source.encode("utf-8", "surrogateescape"))


def try_positions(trials):
    """Each position is drawn, and what is drawn is read as the same position."""
    for path in sorted(EXAMPLES.glob("*.hexpos")):
        status, drawn, errors = run(["tools/hexpos", "--draw"], path.read_text())
        trials.want(f"drawing {path.name}", (0, ""), (status, errors))
        trials.want(f"the drawn {path.name}", (0, path.read_text(), ""), run(["tools/hexpos"], drawn))


def try_drawings(trials):
    text = (EXAMPLES / "bridge-to-the-edge.hexpos").read_text()
    drawn = "  a b c d\n1 . b . .\n 2 . b w b\n  3 w b w .\n   4 . . . .\nwhite to move\n"
    trials.want("a drawing", (0, drawn, ""), run(["tools/hexpos", "--draw"], text))
    column = f"hexpos 1\nsize 11 1\nblack {1 + (1 << 110):032x}\nwhite {1 << 99:032x}\nmove black\n"
    last_rows = f"\n{' ' * 8}9 .\n{' ' * 9}10 w\n{' ' * 10}11 b\nblack to move\n"
    status, drawn, _ = run(["tools/hexpos", "--draw"], column)
    trials.want("eleven rows", (0, last_rows), (status, drawn[-len(last_rows):]))
    # Wide gaps, capital letters, no coordinates, and stones that tell who is to move; then as GTP replies.
    trials.want("a free drawing", (0, text, ""),
                run(["tools/hexpos"], "\n.  B  .  .\n\t.  B  W  B\n   W  B  W  .\r\n     .  .  .  .\nwhite  to  move"))
    reply = "=7   a b\n1 . .\n 2 . b\n\n"
    trials.want("a reply", (0, f"hexpos 1\nsize 2 2\nblack {1 << 12:032x}\nwhite {EMPTY}\nmove white\n", ""),
                run(["tools/hexpos"], reply))


def try_wrong_positions(trials):
    for drawn, told in NO_BOARDS:
        trials.want(f"the drawing {drawn!r}", (1, "", f"hexpos: {told}\n"), hexpos([], drawn))
    for line, text in CHANGES:
        lines = [*POSITION, ""]
        lines[line - 1] = text
        told = f"hexpos: line {line}: wanted {WANTED[line - 1]}\n"
        trials.want(f"line {line} {text!r}", (1, "", told), hexpos(["--draw"], "".join(lines)))


def try_ways(trials):
    """Each way to draw it gives the same position; so do the ways that tools/README.md shows."""
    text = (EXAMPLES / "bridge-to-the-edge.hexpos").read_text()
    page = (TOP / "tools" / "README.md").read_text()
    for drawn in WAYS:
        trials.want(f"the drawing {drawn!r}", (0, text, ""), hexpos([], drawn))
    trials.want("the printed board in tools/README.md", True, f"```\n{PRINTED}```\n" in page)
    shown = re.findall("^    (echo .*tools/hexpos .*)$", page, re.M)
    trials.want("the moves in tools/README.md", 2, len(shown))
    for line in shown:
        trials.want(line, (0, text, ""), run(["sh", "-c", line.replace("> x.hexpos", "")]))


def try_files(trials):
    """A file in the place of standard input, for each kind; and a run that ends otherwise than with 0."""
    position, template = "examples/won-race.hexpos", "examples/templates/ziggurat.hextemplate"
    with tempfile.TemporaryDirectory() as folder:
        for name, words, text in (("x.board", [], position), ("x.drawn", ["--template"], template)):
            path = pathlib.Path(folder, name)
            status, drawn, errors = run(["tools/hexpos", "--draw", text])
            trials.want(f"drawing {text} by its name", (0, ""), (status, errors))
            path.write_text(drawn)
            trials.want(f"the drawn {text} by its name", (0, (TOP / text).read_text(), ""),
                        run(["tools/hexpos", *words, str(path)]))
        path = pathlib.Path(folder, "x.moves")
        path.write_text("a1\n")
        trials.want("moves by the name of their file", hexpos(["--size", "2"], "a1\n"),
                    run(["tools/hexpos", "--size", "2", str(path)]))
        trials.want("moves without a size", (2, "", f"{NO_SIZE}\n"), run(["tools/hexpos", str(path)]))
    missing = "hexpos: [Errno 2] No such file or directory: 'examples/none'\n"
    for words in ([], ["--draw"], ["--template"], ["--size", "2"]):
        trials.want(f"hexpos {words} of no file", (1, "", missing), run(["tools/hexpos", *words, "examples/none"]))
    trials.want("an empty input", (1, "", "hexpos: line 1: expected a row of the board, came none\n"),
                run(["tools/hexpos"]))


def try_words(trials):
    for words in (["--help"], [""], ["--draw", "x", "y"], ["x", "y"], ["--template", "--draw"], ["--draw", "--moves"],
                  ["x", "--draw"], ["-"]):
        trials.want(f"hexpos {words}", (2, "", USAGE + "\n"), hexpos(words))
    trials.want("hexpos and a word that it does not know", (2, "", USAGE + "\n"), run(["tools/hexpos", "--help"]))


TRIED = (try_positions, try_drawings, try_wrong_positions, try_words, try_ways, try_files)
