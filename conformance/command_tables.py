"""Cases of whole commands that are many and alike: a row of a table each, or a front of a text.

Each table says what its rows are, so that a case is added by its row alone.
"""
from command_cases import Case, example, told

TWO_BRIDGES = example("two-bridges.hextree")

# ---- Words

# Words, a position of examples/, and the winner of its tree.
SOLVED = [
    ("solve --workers 2", "one-by-one", "black"),
    ("solve --workers=64", "one-by-one", "black"),
    ("solve --budget=0005 --workers 1", "one-by-one", "black"),
    ("solve --proofs 1048576 --workers=2 --budget 1099511627776", "one-by-one", "black"),
    ("solve --budget 0000000000001", "one-by-one", "black"),
    ("solve --budget=1099511627776", "one-by-one", "black"),
    ("solve --proofs 0", "three-by-three", "black"),
    ("solve --workers 4", "seven-by-seven", "black"),
    ("solve --plain-tree --workers=1", "four-by-four", "black"),
    ("solve --workers 1 --plain-tree --budget=5 --proofs 100", "four-by-four", "black"),
    ("solve --budget 5 --proofs=100 --plain-tree", "four-by-four", "black"),
]

# Words, a position of examples/, and what is used up.
OPEN = [
    ("solve --budget 0", "four-by-four", "budget 0"),
    ("solve --budget=0000000000000", "four-by-four", "budget 0"),
    ("solve --budget=5 --workers 2", "seven-by-seven", "budget 5"),
    ("solve --proofs 0", "four-by-four", "proofs 0"),
    ("solve --proofs=3 --workers 2", "seven-by-seven", "proofs 3"),
    ("solve --plain-tree --budget 0", "four-by-four", "budget 0"),
    ("solve --budget=5 --plain-tree", "seven-by-seven", "budget 5"),
    ("solve --plain-tree --proofs=3", "seven-by-seven", "proofs 3"),
]

# Words of commands that read nothing, and what is used up. An opening of 2 by 2 is small with 16 units, as many nodes
# as a full search of three empty cells may have, and a position of `demo` with 986,410.
OPEN_WITHOUT_INPUT = [
    ("demo 7 --budget 986409 --proofs=0", "proofs 0"),
    ("demo 00000000000000000000 --budget 0000000000000", "budget 0"),
    ("demo 18446744073709551615 --workers=2 --budget=0", "budget 0"),
    ("demo 7 --workers 2 --budget 100 --proofs 0", "proofs 0"),
    ("survey 2 2 --budget 15 --proofs 0", "proofs 0"),
    ("survey 2 2 --budget 0", "budget 0"),
    ("survey 4 4 --proofs 0", "proofs 0"),
    ("survey 11 11 --workers=2 --budget=5", "budget 5"),
]


def of_words():
    for words, name, winner in SOLVED:
        position = example(f"{name}.hexpos")
        yield Case(f"{words} < examples/{name}.hexpos", words.encode().split(), position, 0, tree=winner)
    for words, name, used in OPEN:
        yield told(f"{words} < examples/{name}.hexpos", words, example(f"{name}.hexpos"), f"unknown {used}")
    for words, used in OPEN_WITHOUT_INPUT:
        yield told(words, words, b"", f"unknown {used}")


# ---- Games

# What is shown, the tree of examples/, the lines behind it, and the game.
GAMES = [
    ("no-lines", "two-bridges", "", "play black\nunfinished\n"),
    ("no-lines-of-black", "two-bridges-of-white", "", "play white\nunfinished\n"),
    ("first-move-by-links", "two-by-two-links", "", "play black\na2\nunfinished\n"),
    # It is answered in the first of all links, by its first part.
    ("stone-outside-all-links", "two-bridges", "a1\n", "play black\nb1\nunfinished\n"),
    ("stone-in-the-bridge-to-the-edge", "bridge-to-the-edge", "b4\n", "play black\na4\nchain\n"),
    ("stone-outside-the-bridge-to-the-edge", "bridge-to-the-edge", "d1\n", "play black\nb4\nchain\n"),
    # Of threats the first is played that the stone leaves alone.
    ("stone-in-the-first-threat", "disjoint-threats", "a2\n", "play black\nb2\nchain\n"),
    ("stone-outside-all-threats", "disjoint-threats", "a1\n", "play black\na2\nchain\n"),
    ("chain-of-two-stones", "white-chain", "", "play white\nchain\n"),
    ("lines-behind-a-chain", "one-by-one", "a1\nx\n", "play black\na1\nchain\n"),
    ("lines-behind-a-chain-at-the-start", "white-chain", "a1\nx\n", "play white\nchain\n"),
    ("last-move-without-its-end", "two-bridges", "b1\na3", "play black\nc1\nb3\nchain\n"),
    ("only-move-without-its-end", "two-bridges", "b1", "play black\nc1\nunfinished\n"),
    ("no-move-without-its-end", "two-bridges", "x", "play black\n? illegal\nunfinished\n"),
    ("move-and-a-carriage-return-without-an-end", "two-bridges", "b1\r", "play black\n? illegal\nunfinished\n"),
    # Each stone that lies on the board has its cell, the opponent's and the winner's.
    ("stones-on-stones", "two-bridges", "b1\nb1\nc1\nb2\na3\n",
     "play black\nc1\n? illegal\n? illegal\n? illegal\nb3\nchain\n"),
]

# Lines that are no move on 3 by 3: a move is exactly the word of an empty cell.
NO_MOVES = ["a1 ", " a1", "a1\r", "A1", "a01", "a1 b1", "a", "1", "a0", "a4", "d1", "a1\0", ""]


def of_game(name, text, game):
    """A case of `play`. Its status is told by the game's last line."""
    status = {"chain": 0, "unfinished": 1, "too long": 8}[game.splitlines()[-1]]
    return Case(f"play/{name}", [b"play"], text, status, game.encode())


def games():
    for name, tree, lines, game in GAMES:
        yield of_game(name, example(f"{tree}.hextree") + lines.encode(), game)
    answered = "play black\n? illegal\nc1\nunfinished\n"
    for line in NO_MOVES:
        yield of_game(f"{line!r} is no move", TWO_BRIDGES + f"{line}\nb1\n".encode(), answered)
    second = TWO_BRIDGES.replace(b"hextree 1", b"hextree 2")
    yield of_game("version-2", second + b"b1\n", "play black\nc1\nunfinished\n")


# ---- Templates

# Masks without their leading zeros: of no cell, and of b2.
NONE, B2 = "0", "1000"

# The answer, and the fields of the text: size, black, white, owner, kind, ends and carrier.
TEMPLATES = [
    # White's sides are the left and the right, and the order of the ends does not matter.
    ("yes", "3 3", NONE, B2, "white", "full", "first b2", "400800"),
    ("yes", "3 3", NONE, B2, "white", "full", "b2 first", "400800"),
    ("no", "3 3", NONE, B2, "white", "full", "first b2", "6"),
    # Two ends that are joined need no cell, and two that are apart need some.
    ("yes", "1 2", "1", NONE, "black", "full", "first a1", "0"),
    ("no", "1 1", NONE, "1", "black", "full", "first last", "0"),
    # As many cells as are tried, and one more.
    ("yes", "3 4", NONE, NONE, "black", "semi", "first last", "3c0780f"),
    ("yes", "3 4", NONE, NONE, "black", "full", "first last", "3c0780f"),
    ("no", "3 4", NONE, NONE, "white", "semi", "first last", "3c0780f"),
    ("unknown carrier 13", "4 4", NONE, NONE, "black", "semi", "first last", "203c0780f"),
    # Each line that is wrong.
    ("bad template 2", "3 12", NONE, NONE, "black", "full", "first last", "0"),
    ("bad template 3", "1 1", "2", NONE, "black", "full", "first last", "0"),
    ("bad template 4", "1 1", "1", "1", "black", "full", "first last", "0"),
    ("bad template 5", "1 1", NONE, NONE, "Black", "full", "first last", "0"),
    ("bad template 6", "1 1", NONE, NONE, "black", "half", "first last", "0"),
    ("bad template 7", "1 1", NONE, "1", "black", "full", "a1 last", "0"),
    # A cell that holds a stone, that is an end, or that is not on the board; and no mask.
    ("bad template 8", "3 3", NONE, "1", "black", "full", "first b2", "1"),
    ("bad template 8", "2 2", NONE, NONE, "black", "full", "a1 b2", "803"),
    ("bad template 8", "2 2", NONE, NONE, "black", "full", "a1 b2", "806"),
    ("bad template 8", "2 2", NONE, NONE, "black", "full", "a1 b2", "x02"),
]

# What are no two ends on 1 by 1.
NO_ENDS = ["first", "first first", "a1 a1", "top last", "first b1", "first  last", "first last a1", "First last"]


def text_of(size, black, white, owner, kind, ends, carrier):
    """The text of a template, whose masks get their leading zeros."""
    return (f"hextemplate 1\nsize {size}\nblack {black:0>32}\nwhite {white:0>32}\n"
            f"owner {owner}\nkind {kind}\nends {ends}\ncarrier {carrier:0>32}\n").encode()


TEMPLATE = text_of("2 2", NONE, NONE, "black", "full", "a1 b2", "802")


def templates():
    wrong_ends = [("bad template 7", "1 1", NONE, NONE, "black", "full", ends, "0") for ends in NO_ENDS]
    for answer, *fields in TEMPLATES + wrong_ends:
        yield told(f"template of {', '.join(fields)}", "template", text_of(*fields), answer)
    yield told("template/empty-line-behind-it", "template", TEMPLATE + b"\n", "bad template 9")
    yield told("template/line-behind-it", "template", TEMPLATE + b"x\n", "bad template 9")


# ---- Fronts of texts


def fronts_of(text, name, word, fault):
    """Each front of a text is wrong at the line that is not ended."""
    for size in range(len(text)):
        front = text[:size]
        yield told(f"{word} of the first {size} bytes of {name}", word, front, f"{fault} {front.count(10) + 1}")


def fronts():
    yield from fronts_of(TWO_BRIDGES, "two-bridges.hextree", "play", "no text")
    yield from fronts_of(TEMPLATE, "a template", "template", "bad template")
    # A node that is not plain is told before the last line is wanted.
    turned = example("turned.hextree")
    yield told("play/turned-node-without-the-last-line", "play", turned[:turned.rindex(b"end")], "no plain 1")


def table_cases():
    for table in (of_words, games, templates, fronts):
        yield from table()
