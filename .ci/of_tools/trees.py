"""Pages and pictures of trees by tools/tree-html. What the pages show `.ci/page` tries, which is called here."""
import re
import subprocess

from shared import EXAMPLES, TOP
from shared.trials import run
from tree_page.records import NoTree, read_nodes, record_of

# What is told of some roots: the cells of carriers and of threats, chains, lines, fill steps and children.
ROOTS = {
    "two-bridges": {"rule": "links", "black": "b2", "white": "", "carrier": "b1 c1 a3 b3", "chosen": ""},
    "overlapping-threats": {"rule": "all", "carrier": "a1 b1 a2 b2", "chosen": "b1 a2", "lines": [],
                            "threats": [[8, "Semi, the top to the bottom", "a1 b1 a2"],
                                        [14, "Semi, the top to the bottom", "b1 a2 b2"]]},
    "disjoint-threats": {"rule": "all", "carrier": "a2 b2", "chosen": "", "lines": []},
    "dominated-line": {"rule": "all", "carrier": "", "chosen": "a1 a2 b2",
                       "lines": [["a1", "dead", "a2"], ["a2", "child", 1], ["b2", "child", 3]]},
    "captured-pair": {"rule": "fill", "chosen": "", "black-fill": "a2 b2", "white-fill": "", "child": 0,
                      "fills": [["pair", "a2 b2"]]},
    "bridge-to-the-edge-filled": {"rule": "fill", "chosen": "", "black-fill": "", "white-fill": "a1 d1 a2 d3 c4 d4",
                                  "child": 1},
    "one-by-one": {"rule": "move", "mover": "black", "winner": "black", "chosen": "a1", "child": 0},
    "turned": {"rule": "turned", "black": "b1 b2", "child": 0},
    "white-chain": {"rule": "chain", "winner": "white", "white": "b1 a2", "chain": "a2 b1"},
    "two-bridges-of-white": {"rule": "links", "winner": "white", "carrier": "c1 a2 c2 a3"},
    "or-of-ways-that-overlap": {"rule": "links", "carrier": ""},
}
IN_PAGE = re.compile(r'<script type="text/plain" id="tree">([^<]*)</script>')
CELL = re.compile(r'<g class="cell ?([\w -]*)" data-cell')
KEY_LINE = re.compile(r'"(?:cell )?([\w-]+)" [^\n]*\n<text class="key"[^>]*>(.*)</text>')

# Black's b1 on 2 by 2 with Black to move, where two nodes by `fill` lead to his move to b2; and the same, where the
# second one is its own child.
FILLED = """hextree 1
size 2 2
node {0}1002 {0}0801 white black chain
node {0}0002 {0}0801 black black move b2 0
node {0}0002 {0}0001 black black fill 1 1
other a2
node {0}0002 {0}0000 black black fill 1 2
other a1
end 4 black
""".format("0" * 28)
TEXTS = {"filled": FILLED, "filled-for-ever": FILLED.replace("fill 1 1", "fill 1 2")}

# The keys of some pictures: each mark, and what it is.
KEYS = {
    "filled": [("chosen", "b2, Black's winning move"), ("white-fill", "filled in with White's stones")],
    "filled-for-ever": [("white-fill", "filled in with White's stones")],
    "captured-pair": [("black-fill", "filled in with Black's stones")],
    "one-by-one": [("chosen", "a1, Black's winning move")],
    "two-bridges": [("carrier", "cells of Black's link")],
    "disjoint-threats": [("carrier", "cells of Black's threats")],
    "dominated-line": [("chosen", "moves of White's to be answered")],
    "white-chain": [("chain", "White's chain")],
    "turned": [],
}

# What stands under the boards of some roots, and the sign on a cell.
UNDER = {
    "one-by-one": (["Black to move"], [("a1", "+")]), "two-bridges": (["White to move"], []),
    "captured-pair": (["White to move"], []),
    "filled": (["Black to move"], [("b2", "+")]), "filled-for-ever": (["Black to move"], []),
    "dominated-line": (["White to move", "After a2 Black answers b2", "After b2 Black answers a2"], []),
    "disjoint-threats": (["White to move"], []),
}
NEAR = 20  # of 255: how far two colours of a cell stand apart in grey


def try_trees(trials):
    """Each example has a page, or the line is told at which `hx check` says that it is no tree."""
    answers = dict(re.findall(r"^\| (\S+\.hextree) \|.*\| `(.*)` \|$", (EXAMPLES / "README.md").read_text(), re.M))
    for path in sorted(EXAMPLES.glob("*.hextree")):
        ended = run(["tools/tree-html", f"examples/{path.name}"])
        no_text = re.fullmatch(r"no text (\d+)", answers.get(path.name, ""))
        if no_text:
            told = f"tree-html: line {no_text[1]} is not of the text of a tree\n"
            trials.want(path.name, (1, "", told), ended)
        else:
            try_page(trials, path, ended)


def try_page(trials, path, ended):
    status, page, errors = ended
    trials.want(f"the page of {path.name}", (0, ""), (status, errors))
    trials.want(f"the text in the page of {path.name}", [path.read_text()], IN_PAGE.findall(page))
    nodes = read_nodes(path.read_bytes())
    record = record_of(nodes, len(nodes) - 1)
    for key, value in ROOTS.get(path.stem, {}).items():
        trials.want(f"{key} of {path.name}", value, record.get(key))
    # Nothing but the name of the picture's language looks like an address.
    trials.want(f"addresses in the page of {path.name}", ["http://www.w3.org/2000/svg"],
                re.findall(r"https?:[^\s\"'<>]*", page))
    trials.want(f"what the page of {path.name} loads", [], re.findall(r"\b(?:src|url|import|fetch)\b", page))


def try_root_pictures(trials):
    """Each example has a picture with a key to the marks that are on its board, and to no other."""
    texts = {path.stem: path.read_text() for path in sorted(EXAMPLES.glob("*.hextree"))}
    for stem, text in {**texts, **TEXTS}.items():
        status, drawn, _ = run(["tools/tree-html", "--svg"], text)
        trials.want(f"the picture of {stem}", 1 if told_of(text.encode()) else 0, status)
        key = KEY_LINE.findall(drawn)
        trials.want(f"the marks in the key of {stem}", marks_in(drawn), {mark for mark, _ in key})
        trials.want(f"the key of {stem}", KEYS.get(stem, key), key)


def try_captions(trials):
    """A winning move has a sign; where all moves lose the answers that lines name stand under the board. The picture
    tells its position."""
    texts = {path.stem: path.read_text() for path in sorted(EXAMPLES.glob("*.hextree"))}
    for stem, (under, signs) in UNDER.items():
        _, drawn, _ = run(["tools/tree-html", "--svg"], {**texts, **TEXTS}[stem])
        trials.want(f"what stands under the board of {stem}", under,
                    re.findall(r'<text x="[^"]*" y="[^"]*">([A-Z][^<]*)</text>', drawn))
        trials.want(f"the signs of {stem}", signs,
                    re.findall(r'data-cell="(\w+)"[^\n]*<text class="mark" y="7">(.)</text>', drawn))
    _, drawn, _ = run(["tools/tree-html", "--svg"], texts["dominated-line"])
    label = "A board of 2 by 2: Black on b1; White on no cell. White is to move."
    trials.want("the label of a picture", [label], re.findall('aria-label="([^"]*)"', drawn))


def marks_in(drawn):
    """The marks on a board, without stones."""
    marks = {mark for classes in CELL.findall(drawn) for mark in classes.split()}
    return (marks | set(re.findall('<polyline class="(chain)" points="[^"]', drawn))) - {"black", "white"}


def try_brightness(trials):
    """The marks of a cell, and Black's stones, are told apart in grey. White's have a line around them."""
    style = (TOP / "tools" / "tree_page" / "board.css").read_text()
    fills = dict(re.findall(r"^\.cell(\S*) (?:polygon|circle).* fill: #(?!f{6})(\w{6})", style, re.M))
    grey = sorted(sum(part * int(fill[place:place + 2], 16) for place, part in ((0, 0.299), (2, 0.587), (4, 0.114)))
                  for fill in fills.values())
    trials.want("colours of cells", 4, len(grey))
    trials.want("colours that are too near in grey", [],
                [pair for pair in zip(grey, grey[1:]) if pair[1] - pair[0] < NEAR])


def try_cases(trials):
    """The cases of conformance/, read in this process: whether there is a text of a tree, or its first wrong line."""
    for path in sorted((TOP / "conformance").rglob("*.hextree")):
        answer = path.with_suffix(".answer").read_text().split("\n")[1]
        if not answer.startswith("no node"):  # behind a node that is not right a line may be wrong too
            wanted = "" if answer.startswith("yes") else f"line {answer.split()[-1]} is not of the text of a tree"
            trials.want(f"{path.parent.name}/{path.stem}", wanted, told_of(path.read_bytes()))


def told_of(content):
    try:
        nodes = read_nodes(content)
        for number in range(len(nodes)):
            record_of(nodes, number)
    except NoTree as wrong:
        return str(wrong)
    return ""


def try_words(trials):
    usage = "usage: tools/tree-html [--svg | --template] [FILE]\n"
    for words in (["--help"], ["a", "b"], ["--svg", "--svg"], ["a", "--svg"], ["--svg", "--template"],
                  ["a", "--template"]):
        trials.want(f"tree-html {words}", (2, "", usage), run(["tools/tree-html", *words]))
    trials.want("a tree that is not there", 1, run(["tools/tree-html", "examples/none"])[0])
    tree = EXAMPLES / "two-bridges.hextree"
    by_name = run(["tools/tree-html", "--svg", f"examples/{tree.name}"])
    by_input = run(["tools/tree-html", "--svg"], tree.read_text())
    trials.want("a tree on standard input", by_name, by_input)


def try_pages(trials):
    ended = subprocess.run([".ci/page"], cwd=TOP, stdout=subprocess.PIPE, text=True)
    print(ended.stdout, end="")
    trials.want("pages", 0, ended.returncode)


TRIED = (try_trees, try_root_pictures, try_captions, try_brightness, try_cases, try_words, try_pages)
