#!/usr/bin/env python3
"""Makes the cases of conformance/made: damaged copies of good trees, each with the answer that is due.

Each row is a name, the answer, and then what is taken out of the text and what comes in its place, once or more. What
is taken out stands in the text exactly once. The answers are written from docs/formats.md and from no program.
`make.py --check` writes nothing and says whether the files are those that it would write.
"""
import itertools
import pathlib
import sys

HERE = pathlib.Path(__file__).resolve().parent
MADE = HERE / "made"

ZERO = "0" * 32
ONE = "0" * 31 + "1"


def first_lines():
    """Line 1."""
    return damaged("preamble", "examples/one-by-one", [
        ("version-2-without-turned-nodes", "yes", "hextree 1", "hextree 2"),
        ("version-0", "no text 1", "hextree 1", "hextree 0"),
        ("version-3", "no text 1", "hextree 1", "hextree 3"),
        ("version-01", "no text 1", "hextree 1", "hextree 01"),
        ("version-12", "no text 1", "hextree 1", "hextree 12"),
        ("no-version", "no text 1", "hextree 1", "hextree"),
        ("text-of-a-position", "no text 1", "hextree 1", "hexpos 1"),
        ("upper-case", "no text 1", "hextree 1", "HEXTREE 1"),
        ("one-word-more", "no text 1", "hextree 1", "hextree 1 1"),
        ("two-spaces", "no text 1", "hextree 1", "hextree  1"),
        ("space-at-the-start", "no text 1", "hextree 1", " hextree 1"),
        ("space-at-the-end", "no text 1", "hextree 1", "hextree 1 "),
        ("tab", "no text 1", "hextree 1", "hextree\t1"),
        ("carriage-return", "no text 1", "hextree 1", "hextree 1\r"),
        ("byte-order-mark", "no text 1", "hextree 1", "\xef\xbb\xbfhextree 1"),
        ("empty-first-line", "no text 1", "hextree 1", "\nhextree 1"),
        ("empty-second-line", "no text 2", "hextree 1", "hextree 1\n"),
        ("comment", "no text 2", "hextree 1", "hextree 1\n# a tree"),
    ])


def sizes():
    """Line 2."""
    return damaged("preamble", "examples/one-by-one", [
        ("no-size", "no text 2", "size 1 1\n", ""),
        ("size-twice", "no text 3", "size 1 1\n", "size 1 1\nsize 1 1\n"),
        ("no-rows", "no text 2", "size 1 1", "size 0 1"),
        ("no-columns", "no text 2", "size 1 1", "size 1 0"),
        ("twelve-rows", "no text 2", "size 1 1", "size 12 1"),
        ("twelve-columns", "no text 2", "size 1 1", "size 1 12"),
        ("zero-before-the-rows", "no text 2", "size 1 1", "size 01 1"),
        ("zero-before-the-columns", "no text 2", "size 1 1", "size 1 01"),
        ("size-of-one-number", "no text 2", "size 1 1", "size 1"),
        ("size-of-three-numbers", "no text 2", "size 1 1", "size 1 1 1"),
        ("size-with-a-sign", "no text 2", "size 1 1", "size +1 1"),
        ("size-in-upper-case", "no text 2", "size 1 1", "Size 1 1"),
        ("size-with-a-comma", "no text 2", "size 1 1", "size 1,1"),
        ("size-as-a-cross", "no text 2", "size 1 1", "size 1x1"),
        ("larger-size-is-not-seen-by-the-nodes", "no node 0", "size 1 1", "size 2 1"),
    ])


def masks():
    good = f"node {ONE} {ZERO} white black chain"
    return damaged("node-line", "examples/one-by-one", [
        ("mask-of-31-digits", "no text 3", good, f"node {ONE[1:]} {ZERO} white black chain"),
        ("mask-of-33-digits", "no text 3", good, f"node 0{ONE} {ZERO} white black chain"),
        ("mask-with-a-prefix", "no text 3", good, f"node 0x{ONE[2:]} {ZERO} white black chain"),
        ("mask-with-a-letter-that-is-no-digit", "no text 3", good, f"node g{ONE[1:]} {ZERO} white black chain"),
        ("mask-with-an-underscore", "no text 3", good, f"node 0_{ONE[2:]} {ZERO} white black chain"),
        ("mask-off-the-board", "no text 3", good, f"node {ONE[:-1]}3 {ZERO} white black chain"),
        ("mask-of-white-off-the-board", "no text 3", good, f"node {ONE} 8{ZERO[1:]} white black chain"),
        ("mask-with-the-highest-digit", "no text 3", good, f"node 8{ONE[1:]} {ZERO} white black chain"),
        ("masks-share-a-cell", "no text 3", good, f"node {ONE} {ONE} white black chain"),
        ("one-mask", "no text 3", good, f"node {ONE} white black chain"),
        ("three-masks", "no text 3", good, f"node {ONE} {ZERO} {ZERO} white black chain"),
    ]) + damaged("node-line", "examples/two-bridges", [
        ("mask-off-a-board-of-three-columns", "no text 3", "00001000 0", "00001008 0"),
        ("mask-off-a-board-of-three-rows", "no text 3", "00001000 0", "200001000 "),
    ]) + damaged("node-line", "written/chain/winding", [
        ("mask-in-upper-case", "no text 3", "200c0", "200C0"),
    ])


def node_lines():
    """The other words of a node's first line, but for what follows its rule."""
    good = f"node {ONE} {ZERO} white black chain"
    return damaged("node-line", "examples/one-by-one", [
        ("one-colour", "no text 3", good, f"node {ONE} {ZERO} black chain"),
        ("colour-in-upper-case", "no text 3", good, f"node {ONE} {ZERO} White black chain"),
        ("colour-by-its-letter", "no text 3", good, f"node {ONE} {ZERO} w black chain"),
        ("no-winner", "no text 3", good, f"node {ONE} {ZERO} white none chain"),
        ("colours-before-the-masks", "no text 3", good, f"node white black {ONE} {ZERO} chain"),
        ("no-rule", "no text 3", good, f"node {ONE} {ZERO} white black"),
        ("space-for-a-rule", "no text 3", good, f"node {ONE} {ZERO} white black "),
        ("unknown-rule", "no text 3", good, f"node {ONE} {ZERO} white black pass"),
        ("rule-in-upper-case", "no text 3", good, f"node {ONE} {ZERO} white black Chain"),
        ("unknown-first-word", "no text 3", good, f"leaf {ONE} {ZERO} white black chain"),
        ("chain-with-a-number", "no text 3", good, f"{good} 0"),
        ("space-at-the-end", "no text 3", good, f"{good} "),
        ("space-at-the-start", "no text 3", good, f" {good}"),
        ("two-spaces", "no text 3", good, f"node  {ONE} {ZERO} white black chain"),
        ("carriage-return", "no text 3", good, f"{good}\r"),
        ("zero-byte-at-the-end", "no text 3", good, f"{good}\0"),
        ("empty-line-after-a-node", "no text 4", good, f"{good}\n"),
    ])


def cells():
    """A cell, and how many words a line has."""
    return damaged("move-line", "examples/one-by-one", [
        ("no-child", "no text 4", "move a1 0", "move a1"),
        ("no-cell", "no text 4", "move a1 0", "move 0"),
        ("two-children", "no text 4", "move a1 0", "move a1 0 0"),
        ("child-before-the-cell", "no text 4", "move a1 0", "move 0 a1"),
        ("cell-off-the-board-below", "no text 4", "move a1 0", "move a2 0"),
        ("cell-off-the-board-to-the-right", "no text 4", "move a1 0", "move b1 0"),
        ("cell-in-upper-case", "no text 4", "move a1 0", "move A1 0"),
        ("cell-with-a-zero-before-its-row", "no text 4", "move a1 0", "move a01 0"),
        ("cell-in-row-zero", "no text 4", "move a1 0", "move a0 0"),
        ("cell-without-a-row", "no text 4", "move a1 0", "move a 0"),
        ("cell-without-a-column", "no text 4", "move a1 0", "move 1 0"),
        ("cell-with-a-row-of-many-digits", "no text 4", "move a1 0", "move a" + "1" * 40 + " 0"),
        ("cell-after-column-k", "no text 4", "move a1 0", "move l1 0"),
        ("side-for-a-cell", "no text 4", "move a1 0", "move first 0"),
    ])


def numbers():
    return damaged("move-line", "examples/one-by-one", [
        ("number-with-a-zero-before-it", "no text 4", "move a1 0", "move a1 00"),
        ("number-with-a-minus", "no text 4", "move a1 0", "move a1 -1"),
        ("number-with-a-plus", "no text 4", "move a1 0", "move a1 +0"),
        ("number-with-a-point", "no text 4", "move a1 0", "move a1 0."),
        ("number-with-underscores", "no text 4", "move a1 0", "move a1 1_0"),
        ("number-in-base-16", "no text 4", "move a1 0", "move a1 a"),
        ("number-in-other-digits", "no text 4", "move a1 0", "move a1 \xd9\xa0"),
        ("number-with-a-raised-digit", "no text 4", "move a1 0", "move a1 \xb2"),
        ("largest-number", "no node 1", "move a1 0", "move a1 4294967295"),
        ("number-too-large", "no text 4", "move a1 0", "move a1 4294967296"),
        ("number-of-eleven-digits", "no text 4", "move a1 0", "move a1 10000000000"),
        ("number-above-two-to-the-64", "no text 4", "move a1 0", "move a1 18446744073709551616"),
        ("number-of-three-thousand-digits", "no text 4", "move a1 0", "move a1 " + "9" * 3000),
        ("nothing-for-a-number", "no text 4", "move a1 0", "move a1 "),
        ("tab-between-words", "no text 4", "move a1 0", "move a1\t0"),
    ])


def counts_of_steps():
    """How many lines follow, and whether so many follow."""
    return damaged("counts", "examples/two-bridges", [
        ("one-step-fewer-than-counted", "no text 19", "links 15", "links 16"),
        ("one-step-more-than-counted", "no node 0", "links 15", "links 14"),
        ("most-steps", "no text 19", "links 15", "links 8192", "end 1 black\n", ""),
        ("too-many-steps", "no text 3", "links 15", "links 8193"),
        ("steps-with-a-zero-before-them", "no text 3", "links 15", "links 015"),
        ("no-count-of-steps", "no text 3", "links 15", "links"),
        ("two-counts-of-steps", "no text 3", "links 15", "links 15 0"),
        ("end-among-the-steps", "no text 10", "or 2 5\n", "end 1 black\n"),
        ("node-among-the-steps", "no text 10", "or 2 5\n", f"node {ONE} {ZERO} white black chain\n"),
        ("threat-for-a-step", "no text 10", "or 2 5\n", "threat 2\n"),
        ("answer-for-a-step", "no text 10", "or 2 5\n", "line a1 child 0\n"),
        ("fill-step-for-a-step", "no text 10", "or 2 5\n", "other a1\n"),
        ("empty-line-for-a-step", "no text 10", "or 2 5\n", "\n"),
    ])


def other_counts():
    """The same of threats, answers and fill steps."""
    return damaged("counts", "examples/disjoint-threats", [
        ("one-threat-fewer-than-counted", "no text 12", "all 6 2 0", "all 6 3 0"),
        ("one-threat-more-than-counted", "no node 0", "all 6 2 0", "all 6 1 0"),
        ("steps-and-threats-counted-anew", "no text 9", "all 6 2 0", "all 5 3 0"),
        ("too-many-steps-before-threats", "no text 3", "all 6 2 0", "all 8193 2 0"),
        ("too-many-threats", "no text 3", "all 6 2 0", "all 6 129 0"),
        ("most-threats", "no text 13", "all 6 2 0", "all 6 128 0", "end 1 black", "threat 2"),
        ("two-counts", "no text 3", "all 6 2 0", "all 6 2"),
        ("four-counts", "no text 3", "all 6 2 0", "all 6 2 0 0"),
        ("threat-before-steps", "no text 4", "base first a2\n", "threat 2\nbase first a2\n"),
    ]) + damaged("counts", "examples/dominated-line", [
        ("one-answer-fewer-than-counted", "no text 11", "all 0 0 3", "all 0 0 4"),
        ("one-answer-more-than-counted", "no node 4", "all 0 0 3", "all 0 0 2"),
        ("too-many-answers", "no text 7", "all 0 0 3", "all 0 0 122"),
        ("most-answers", "no text 11", "all 0 0 3", "all 0 0 121"),
        ("answers-counted-as-threats", "no text 8", "all 0 0 3", "all 0 3 0"),
    ]) + damaged("counts", "examples/captured-pair", [
        ("one-fill-step-fewer-than-counted", "no text 6", "fill 1 0", "fill 2 0"),
        ("one-fill-step-more-than-counted", "no text 6", "pair a2 b2\n", "pair a2 b2\nother a1\n"),
        ("most-fill-steps", "no text 6", "fill 1 0", "fill 121 0"),
        ("too-many-fill-steps", "no text 4", "fill 1 0", "fill 122 0"),
        ("no-child-of-a-fill", "no text 4", "fill 1 0", "fill 1"),
        ("step-for-a-fill-step", "no text 5", "pair a2 b2", "base a2 b2"),
    ])


def step_lines():
    return damaged("step-line", "examples/two-by-two-links", [
        ("base-of-one-vertex", "no text 4", "base first a1", "base first"),
        ("base-of-three-vertices", "no text 4", "base first a1", "base first a1 a2"),
        ("base-of-a-cell-off-the-board", "no text 4", "base first a1", "base first c1"),
        ("base-of-a-number", "no text 4", "base first a1", "base first 0"),
        ("base-of-an-unknown-side", "no text 4", "base first a1", "base top a1"),
        ("base-of-a-side-in-upper-case", "no text 4", "base first a1", "base First a1"),
        ("unknown-step", "no text 4", "base first a1", "bridge first a1"),
        ("cell-of-one-number", "no text 6", "cell 0 1", "cell 0"),
        ("cell-of-three-numbers", "no text 6", "cell 0 1", "cell 0 1 1"),
        ("cell-of-a-cell", "no text 6", "cell 0 1", "cell a1 1"),
        ("stone-of-one-number", "no text 6", "cell 0 1", "stone 0"),
        ("stone-of-no-number", "no text 6", "cell 0 1", "stone"),
        ("number-with-a-zero-before-it", "no text 6", "cell 0 1", "cell 0 01"),
        ("number-too-large", "no text 6", "cell 0 1", "cell 0 4294967296"),
        ("or-without-a-number", "no node 0", "or 2 5", "or"),
        ("or-with-a-space-alone", "no text 10", "or 2 5", "or "),
        ("or-of-a-cell", "no text 10", "or 2 5", "or 2 a1"),
        ("or-with-two-spaces", "no text 10", "or 2 5", "or 2  5"),
        ("or-in-upper-case", "no text 10", "or 2 5", "OR 2 5"),
        ("space-at-the-end", "no text 10", "or 2 5", "or 2 5 "),
    ])


def threat_and_answer_lines():
    return damaged("threat-line", "examples/disjoint-threats", [
        ("without-a-number", "no text 10", "threat 2", "threat"),
        ("of-two-numbers", "no text 10", "threat 2\nthreat 5\n", "threat 2 5\n"),
        ("of-a-cell", "no text 10", "threat 2", "threat a2"),
        ("in-the-plural", "no text 11", "threat 5", "threats 5"),
    ]) + damaged("answer-line", "examples/dominated-line", [
        ("without-an-answer", "no text 8", "line a1 dead a2", "line a1"),
        ("without-a-cell", "no text 8", "line a1 dead a2", "line"),
        ("child-without-a-number", "no text 9", "line a2 child 1", "line a2 child"),
        ("child-of-a-cell", "no text 9", "line a2 child 1", "line a2 child b2"),
        ("child-of-two-numbers", "no text 9", "line a2 child 1", "line a2 child 1 3"),
        ("dead-without-a-cell", "no text 8", "line a1 dead a2", "line a1 dead"),
        ("dead-with-two-cells", "no text 8", "line a1 dead a2", "line a1 dead a2 b2"),
        ("dead-with-a-number", "no text 8", "line a1 dead a2", "line a1 dead 1"),
        ("pair-with-one-cell", "no text 8", "line a1 dead a2", "line a1 pair a2"),
        ("pair-with-three-cells", "no text 8", "line a1 dead a2", "line a1 pair a2 b2 a1"),
        ("side-for-a-cell", "no text 8", "line a1 dead a2", "line first dead a2"),
        ("cell-off-the-board", "no text 8", "line a1 dead a2", "line c1 dead a2"),
        ("better-cell-off-the-board", "no text 8", "line a1 dead a2", "line a1 dead a3"),
        ("unknown-answer", "no text 8", "line a1 dead a2", "line a1 captured a2"),
        ("unknown-first-word", "no text 8", "line a1 dead a2", "answer a1 dead a2"),
        ("without-its-first-word", "no text 8", "line a1 dead a2", "a1 dead a2"),
    ])


def fill_and_turned_lines():
    return damaged("fill-line", "examples/captured-pair", [
        ("pair-of-one-cell", "no text 5", "pair a2 b2", "pair a2"),
        ("pair-of-three-cells", "no text 5", "pair a2 b2", "pair a2 b2 a1"),
        ("pair-with-a-side", "no text 5", "pair a2 b2", "pair a2 last"),
        ("pair-with-a-cell-off-the-board", "no text 5", "pair a2 b2", "pair a2 c2"),
        ("dead-without-a-cell", "no text 5", "pair a2 b2", "dead"),
        ("dead-of-two-cells", "no text 5", "pair a2 b2", "dead a2 b2"),
        ("other-of-two-cells", "no text 5", "pair a2 b2", "other a2 b2"),
        ("other-off-the-board", "no text 5", "pair a2 b2", "other a3"),
        ("unknown-fill-step", "no text 5", "pair a2 b2", "stone a2"),
    ]) + damaged("turned-line", "examples/turned", [
        ("in-version-1", "no text 4", "hextree 2", "hextree 1"),
        ("without-a-number", "no text 4", "turned 0", "turned"),
        ("of-two-numbers", "no text 4", "turned 0", "turned 0 0"),
        ("of-a-cell", "no text 4", "turned 0", "turned a1"),
        ("of-the-largest-number", "no node 1", "turned 0", "turned 4294967295"),
    ])


def last_lines():
    """The last line, and what comes after it."""
    return damaged("end", "examples/one-by-one", [
        ("one-node-too-few", "no text 5", "end 2 black", "end 1 black"),
        ("one-node-too-many", "no text 5", "end 2 black", "end 3 black"),
        ("zero-before-the-number", "no text 5", "end 2 black", "end 02 black"),
        ("other-winner", "no text 5", "end 2 black", "end 2 white"),
        ("no-winner", "no text 5", "end 2 black", "end 2"),
        ("no-number", "no text 5", "end 2 black", "end black"),
        ("winner-before-the-number", "no text 5", "end 2 black", "end black 2"),
        ("one-word-more", "no text 5", "end 2 black", "end 2 black black"),
        ("space-at-the-end", "no text 5", "end 2 black", "end 2 black "),
        ("carriage-return", "no text 5", "end 2 black", "end 2 black\r"),
        ("upper-case", "no text 5", "end 2 black", "END 2 black"),
        ("missing", "no text 5", "end 2 black\n", ""),
        ("not-ended", "no text 5", "end 2 black\n", "end 2 black"),
        ("twice", "no text 6", "end 2 black\n", "end 2 black\nend 2 black\n"),
        ("empty-line-after-it", "no text 6", "end 2 black\n", "end 2 black\n\n"),
        ("space-after-it", "no text 6", "end 2 black\n", "end 2 black\n "),
        ("zero-byte-after-it", "no text 6", "end 2 black\n", "end 2 black\n\0"),
        ("two-lines-after-it", "no text 6", "end 2 black\n", "end 2 black\nend\nend\n"),
        ("node-after-it", "no text 6", "end 2 black\n", f"end 2 black\nnode {ONE} {ZERO} white black chain\n"),
        ("node-line-not-ended", "no text 4", "move a1 0\nend 2 black\n", "move a1 0"),
        ("node-line-cut", "no text 4", "black move a1 0\nend 2 black\n", "bl"),
        ("after-an-earlier-node", "yes", f"node {ZERO} {ZERO} black black move a1 0\nend 2 black\n", "end 1 black\n"),
        ("before-a-further-node", "no text 5", f"node {ZERO} {ZERO} black black move a1 0\n",
         f"end 1 black\nnode {ZERO} {ZERO} black black move a1 0\n"),
    ])


def texts_that_stop():
    """Where a text stops early, or its lines do not end as lines do."""
    return whole("end", [
        ("empty-text", "no text 1", ""),
        ("line-end-alone", "no text 1", "\n"),
        ("first-line-not-ended", "no text 1", "hextree 1"),
        ("first-line-alone", "no text 2", "hextree 1\n"),
        ("second-line-not-ended", "no text 2", "hextree 1\nsize 1 1"),
        ("no-nodes-and-no-end", "no text 3", "hextree 1\nsize 1 1\n"),
        ("no-nodes", "no text 3", "hextree 1\nsize 1 1\nend 0 black\n"),
        ("no-nodes-but-one-counted", "no text 3", "hextree 1\nsize 1 1\nend 1 black\n"),
        ("carriage-returns-for-line-ends", "no text 1",
         f"hextree 1\rsize 1 1\rnode {ONE} {ZERO} white black chain\rend 1 black\r"),
        ("carriage-returns-before-line-ends", "no text 1",
         f"hextree 1\r\nsize 1 1\r\nnode {ONE} {ZERO} white black chain\r\nend 1 black\r\n"),
        ("line-separators-of-other-standards", "no text 3",
         f"hextree 1\nsize 1 1\nnode {ONE} {ZERO} white black chain\x85end 1 black\x0b\n"),
    ])


def orders():
    """Which of two faults is told: the first, in the order in which lines and nodes end."""
    wrong = f"node {ZERO} {ZERO} white black chain\n"
    right = f"node {ONE} {ZERO} white black chain\n"
    begin = "hextree 1\nsize 1 1\n"
    return whole("order", [
        ("wrong-node-before-a-wrong-line", "no node 0", begin + wrong + "node\nend 2 black\n"),
        ("wrong-line-before-a-wrong-node", "no text 3", begin + "node\n" + wrong + "end 2 black\n"),
        ("two-wrong-nodes", "no node 1", begin + right + wrong + wrong + "end 3 black\n"),
        ("wrong-node-before-a-wrong-end", "no node 0", begin + wrong + "end 7 white\n"),
        ("wrong-node-before-no-end", "no node 0", begin + wrong),
        ("right-node-before-no-end", "no text 4", begin + right),
        ("wrong-node-not-ended", "no text 3", begin + wrong[:-1]),
        ("wrong-node-before-a-text-that-goes-on", "no node 0", begin + wrong + "end 1 black\nend 1 black\n"),
        ("wrong-line-inside-a-wrong-node", "no text 5",
         begin + f"node {ZERO} {ZERO} black black links 2\nbase a1 a1\nbase a1 a2\nend 1 black\n"),
        ("wrong-step-before-a-missing-one", "no text 5",
         begin + f"node {ZERO} {ZERO} black black links 2\nbase a1 a1\nend 1 black\n"),
        ("wrong-step-of-a-node-that-stops", "no text 5",
         begin + f"node {ZERO} {ZERO} black black links 2\nbase a1 a1\n"),
        ("wrong-step-in-a-last-line-not-ended", "no text 4",
         begin + f"node {ZERO} {ZERO} black black links 1\nbase a1 a1"),
        ("wrong-step-in-a-last-line", "no node 0",
         begin + f"node {ZERO} {ZERO} black black links 1\nbase a1 a1\n\n"),
        ("wrong-answer-before-a-wrong-line", "no text 5",
         begin + f"node {ZERO} {ZERO} white black all 0 0 2\nline a1 child 9\nline a9 child 9\nend 1 black\n"),
        ("wrong-fill-before-a-wrong-line", "no text 5",
         begin + f"node {ONE} {ZERO} white black fill 2 0\ndead a1\ndead b1\nend 1 black\n"),
        ("wrong-node-without-lines-before-a-wrong-line", "no node 0",
         begin + f"node {ZERO} {ZERO} black black links 0\nbase a1 b1\nend 1 black\n"),
        ("right-nodes-before-a-wrong-line", "no text 5", begin + right + right + "chain\n"),
        ("masks-that-share-a-cell-before-a-wrong-rule", "no text 3",
         begin + f"node {ONE} {ONE} white black pass\nend 1 black\n"),
        ("wrong-version-before-all", "no text 1", "hextree 3\nsize 12 1\n" + wrong),
        ("wrong-size-before-a-wrong-node", "no text 2", "hextree 1\nsize 12 1\n" + wrong + "end 1 black\n"),
        ("turned-in-version-1-after-a-wrong-node", "no node 0",
         begin + wrong + f"node {ONE} {ZERO} white black turned 0\nend 2 black\n"),
        ("turned-in-version-1-before-a-wrong-node", "no text 3",
         begin + f"node {ONE} {ZERO} white black turned 0\n" + wrong + "end 2 black\n"),
    ])


def long_texts():
    """As many lines as a node may have."""
    steps = "base first a1\n" * 8190 + "base a1 last\ncell 0 8190\n"
    begin = f"hextree 1\nsize 1 1\nnode {ZERO} {ZERO} black black links 8192\n"
    return whole("long", [
        ("most-steps", "yes", begin + steps + "end 1 black\n"),
        ("most-steps-and-a-line-more", "no text 8196", begin + steps + "base first a1\nend 1 black\n"),
        ("a-step-too-many", "no text 3", begin.replace("8192", "8193") + "base first a1\n" + steps.replace("8190", "8191")
         + "end 1 black\n"),
        ("a-step-too-many-before-threats", "no text 3", threats("all 8193 2 0", "base first a2\n" * 8187)),
        ("most-steps-before-threats", "yes", threats("all 8192 2 0", "base first a2\n" * 8186)),
    ])


def threats(rule, further_steps):
    """A node with two threats that share no cell, whose other steps no threat needs."""
    steps = "base first a2\nbase a2 last\ncell 0 1\nbase first b2\nbase b2 last\ncell 3 4\n"
    begin = f"hextree 1\nsize 2 2\nnode {ZERO[:-1]}2 {ZERO} white black {rule}\n"
    return f"{begin}{steps}{further_steps}threat 2\nthreat 5\nend 1 black\n"


def examples():
    return [row for name, answer in [
        ("one-by-one", "yes"), ("two-by-two-links", "yes"), ("two-bridges", "yes"), ("disjoint-threats", "yes"),
        ("overlapping-threats", "no node 0"), ("captured-pair", "yes"), ("dominated-line", "yes"), ("turned", "yes"),
    ] for row in damaged("examples", "examples/" + name, [(name, answer)])]


def damaged(subject, source, rows):
    place = HERE.parent if source.startswith("examples/") else HERE
    text = (place / (source + ".hextree")).read_bytes().decode("latin-1")
    return [(f"{subject}/{name}", answer, replaced(text, changes)) for name, answer, *changes in rows]


def replaced(text, changes):
    for old, new in zip(changes[::2], changes[1::2]):
        assert text.count(old) == 1, f"{old!r} stands {text.count(old)} times in the text"
        text = text.replace(old, new)
    return text


def whole(subject, rows):
    return [(f"{subject}/{name}", answer, text) for name, answer, text in rows]


def told(answer, text):
    """The status, and below it what is written."""
    if answer != "yes":
        return f"1\n{answer}\n"
    lines = text.split("\n")
    _, black, white, mover, winner, *_ = [line for line in lines if line.startswith("node ")][-1].split(" ")
    return f"0\nyes {winner}\nhexpos 1\n{lines[1]}\nblack {black}\nwhite {white}\nmove {mover}\n"


SUBJECTS = (first_lines, sizes, masks, node_lines, cells, numbers, counts_of_steps, other_counts, step_lines,
            threat_and_answer_lines, fill_and_turned_lines, last_lines, texts_that_stop, orders, long_texts, examples)


def made_files():
    files = {}
    for name, answer, text in itertools.chain(*(subject() for subject in SUBJECTS)):
        assert name + ".hextree" not in files, f"{name} stands twice"
        files[name + ".hextree"] = text.encode("latin-1")
        files[name + ".answer"] = told(answer, text).encode("latin-1")
    return files


def main():
    files = made_files()
    there = {str(path.relative_to(MADE)): path for path in MADE.rglob("*") if path.is_file()}
    stale = sorted(set(there) - set(files))
    differ = sorted(name for name in files if name not in there or there[name].read_bytes() != files[name])
    if sys.argv[1:] == ["--check"]:
        for name in stale + differ:
            print(f"conformance/made/{name} is not what make.py makes")
        return 1 if stale or differ else 0
    for name in stale:
        there[name].unlink()
    for name in differ:
        (MADE / name).parent.mkdir(parents=True, exist_ok=True)
        (MADE / name).write_bytes(files[name])
    return 0


if __name__ == "__main__":
    sys.exit(main())
