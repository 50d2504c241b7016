"""Cases of whole commands whose texts are at a limit, or long: a function makes each when it is wanted.

docs/formats.md has the limits. Each table says what its rows are, so that a case is added by its row alone.
"""
from command_cases import Case, example, root_of, told
from command_tables import TEMPLATE, TWO_BRIDGES, of_game

POSITION, TREE, CHAIN = map(example, ("one-by-one.hexpos", "one-by-one.hextree", "white-chain.hextree"))

MOST_LINES = MOST_NODES = 1_048_576
MOST_BYTES = 16_777_216  # of a tree for `play`

# ---- Texts


def line_of(size):
    """So many bytes without an LF."""
    return b"x" * size


def filled(text, size):
    """The text and then line ends, so many bytes in all."""
    return text.ljust(size, b"\n")


def chains(count):
    """A text of so many nodes on the board of one cell, in each of which Black has won, without its last line."""
    return b"hextree 1\nsize 1 1\n" + (TREE.splitlines()[2] + b"\n") * count


def large_tree(child):
    """A text of 188,507 nodes, of which this one is the child of the last. With two digits it has the most bytes."""
    move = b"node %s %s black black move a1 " % (b"0" * 32, b"0" * 32)
    text = chains(188_493) + (move + b"0\n") * 13 + move + b"%d\nend 188507 black\n" % child
    assert len(text) == MOST_BYTES + len(str(child)) - 2
    return text


# ---- Tables

# What is shown, a function that makes the text, and the line that is told.
TEXTS = [
    ("check/line-of-4096-bytes", lambda: line_of(4096) + b"\n", "no text 1"),
    ("check/line-of-4097-bytes", lambda: line_of(4097) + b"\n", "too long"),
    ("check/line-of-4096-bytes-without-its-end", lambda: line_of(4096), "no text 1"),
    ("check/line-of-4097-bytes-without-its-end", lambda: line_of(4097), "too long"),
    ("check/line-of-4097-bytes-behind-a-tree", lambda: TREE + line_of(4097), "too long"),
    ("check/line-of-5000-bytes-behind-a-wrong-node",
     lambda: TREE.replace(b"a1 0\n", b"a1 1\n" + line_of(5000) + b"\n"), "no node 1"),
    ("check/1048577-nodes", lambda: chains(MOST_NODES + 1), "too long"),
    ("solve/4096-bytes", lambda: filled(POSITION, 4096), "bad position 6"),
    ("solve/4097-bytes", lambda: filled(POSITION, 4097), "too long"),
    ("solve/line-of-4097-bytes", lambda: line_of(4097), "too long"),
    ("template/4096-bytes", lambda: filled(TEMPLATE, 4096), "bad template 9"),
    ("template/4097-bytes", lambda: filled(TEMPLATE, 4097), "too long"),
    ("template/line-of-4097-bytes", lambda: line_of(4097), "too long"),
    ("play/line-of-4097-bytes", lambda: line_of(4097), "too long"),
    ("play/16777217-bytes-of-a-tree", lambda: large_tree(100), "too long"),
]

# What is shown, a function that makes the tree and the lines behind it, and the game.
GAMES = [
    ("16777216-bytes-of-a-tree", lambda: large_tree(10) + b"a1\n", "play black\na1\nchain\n"),
    ("5000-bytes-behind-a-chain", lambda: CHAIN + line_of(5000), "play white\nchain\n"),
    ("line-of-4096-bytes-behind-a-tree", lambda: TWO_BRIDGES + line_of(4096), "play black\n? illegal\nunfinished\n"),
    ("line-of-4097-bytes-behind-a-move", lambda: TWO_BRIDGES + b"b1\n" + line_of(4097), "play black\nc1\ntoo long\n"),
    ("1048576-lines-behind-a-tree", lambda: TWO_BRIDGES + b"x\n" * MOST_LINES,
     "play black\n" + "? illegal\n" * MOST_LINES + "unfinished\n"),
    ("1048577-lines-behind-a-tree", lambda: TWO_BRIDGES + b"x\n" * (MOST_LINES + 1),
     "play black\n" + "? illegal\n" * MOST_LINES + "too long\n"),
]

# What is shown, a function that makes the script, the status and the replies.
SCRIPTS = [
    ("line-of-4096-bytes-without-its-end", lambda: line_of(4096), 0, b"? unknown command\n\n"),
    ("line-of-4097-bytes-without-its-end", lambda: line_of(4097), 8, b"? line too long\n\n"),
    ("line-of-4097-bytes", lambda: line_of(4097) + b"\n", 8, b"? line too long\n\n"),
    ("5000-bytes-behind-quit", lambda: b"quit\n" + b"\0" * 5000, 0, b"= \n\n"),
    ("1048577-lines", lambda: b"name\n" * (MOST_LINES + 1), 8, b"= hx\n\n" * MOST_LINES + b"? line too long\n\n"),
]


def limit_cases():
    yield Case("hx check and 4,096 zeros", [b"check", b"0" * 4096], b"", 2, b"bad words\n")
    for name, made, line in TEXTS:
        yield told(name, name.partition("/")[0], made, line)
    yield Case("check/1048576-nodes", [b"check"], lambda: chains(MOST_NODES) + b"end %d black\n" % MOST_NODES, 0,
               b"yes black\n" + root_of(chains(1)))
    for name, made, game in GAMES:
        yield of_game(name, made, game)
    for name, made, status, replies in SCRIPTS:
        yield Case(f"htp/{name}", [b"htp"], made, status, replies)
