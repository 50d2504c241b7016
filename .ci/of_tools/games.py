"""Games in a terminal by tools/play-tree, over the built program."""
from shared.trials import run

# What is written before a move against two-bridges.hextree, and behind one to b1.
BRIDGES = """The tree plays for Black, who joins the top with the bottom.\
 A + is an empty cell of the links by which that is sure.
  a b c
1 . + +
 2 . b .
  3 + + .
white> """
AFTER_B1 = """Black answers c1.
  a b c
1 . w b
 2 . b .
  3 + + .
white> """
AFTER_A3 = """Black answers b3.
  a b c
1 . w b
 2 . b .
  3 w b .
Black has joined the top with the bottom and won.
"""

# Games in a terminal: a tree, the lines, and what is written to them.
NOT_A_CELL = "is not a cell: write a letter and a number, as c3, or undo, or quit.\nwhite> "
GAMES = [
    ("two-bridges", "b1\na3\n", BRIDGES + AFTER_B1 + AFTER_A3),
    ("two-bridges", "b1\na3", BRIDGES + AFTER_B1 + AFTER_A3),
    ("two-bridges", "b1\nquit\na3\n", BRIDGES + AFTER_B1),
    ("two-bridges", "", BRIDGES + "\n"),
    ("two-bridges", "b2\nB1\nb1\nc1\n a3 \n",
     BRIDGES + "b2 is taken.\nwhite> " + AFTER_B1 + "b1 is taken.\nwhite> c1 is taken.\nwhite> " + AFTER_A3),
    ("two-bridges", "d1\na4\na12\nl1\nquit\n",
     BRIDGES + "".join(f"{word} is not on the board.\nwhite> " for word in ("d1", "a4", "a12", "l1"))),
    ("two-bridges", "\nb\nb 1\na01\nb0\nhelp\n\0\nquit\n",
     BRIDGES + "".join(f"{word!r} {NOT_A_CELL}" for word in ("", "b", "b 1", "a01", "b0", "help", "\0"))),
    ("two-bridges", "undo\nb1\nundo\nundo\nquit\n", BRIDGES + "There is no move to take back.\nwhite> " + AFTER_B1
     + BRIDGES.partition("\n")[2] + "There is no move to take back.\nwhite> "),
    ("two-bridges", "b1\nc3\n", BRIDGES + AFTER_B1 + AFTER_A3.replace("b3", "a3").replace("w b .", "b . w")),
    ("one-by-one", "quit\n", "The tree plays for Black, who joins the top with the bottom."
     " A + is an empty cell of the links by which that is sure.\nBlack begins with a1.\n  a\n1 b\n"
     "Black has joined the top with the bottom and won.\n"),
    ("white-chain", "", "The tree plays for White, who joins the left with the right."
     " A + is an empty cell of the links by which that is sure.\n  a b\n1 b w\n 2 w .\n"
     "White has joined the left with the right and won.\n"),
    ("two-by-two-links", "a1\nb2\n", "The tree plays for Black, who joins the top with the bottom."
     " A + is an empty cell of the links by which that is sure.\nBlack begins with a2.\n"
     "  a b\n1 + +\n 2 b .\nwhite> Black answers b1.\n  a b\n1 w b\n 2 b .\nBlack has joined the top with the bottom "
     "and won.\n"),
]

# Files that cannot be played by, and why.
NO_GAMES = [
    ("examples/dominated-line.hextree", "node 4 does not tell what to play: make a tree with ./hx solve --plain-tree"),
    ("examples/captured-pair.hextree", "node 1 does not tell what to play: make a tree with ./hx solve --plain-tree"),
    ("examples/turned.hextree", "node 1 does not tell what to play: make a tree with ./hx solve --plain-tree"),
    ("examples/its-own-child.hextree", "node 0 is not right"),
    ("examples/cut-off.hextree", "line 9 is not of the text of a tree"),
    ("examples/other-winner-at-the-end.hextree", "line 19 is not of the text of a tree"),
    ("examples/two-by-two.hexpos", "line 1 is not of the text of a tree"),
    ("/dev/null", "line 1 is not of the text of a tree"),
    ("examples/none", "[Errno 2] No such file or directory: 'examples/none'"),
]


def try_games(trials):
    """Games in a terminal, over the built program."""
    for name, lines, output in GAMES:
        trials.want(f"play-tree {name} and {lines!r}", (0, output, ""),
                    run(["tools/play-tree", f"examples/{name}.hextree"], lines))
    for path, told in NO_GAMES:
        trials.want(f"play-tree {path}", (1, "", f"play-tree: {told}\n"), run(["tools/play-tree", path], "a1\n"))
    for words in ([], ["--help"], ["a", "b"]):
        trials.want(f"play-tree {words}", (2, "", "usage: tools/play-tree TREE\n"), run(["tools/play-tree", *words]))


TRIED = (try_games,)
