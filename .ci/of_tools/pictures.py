"""Pictures: of positions by tools/position-svg, of crates by tools/crates-graph, and all that stand in docs/."""
import pathlib
import re
import sys
import tempfile

from drawn_boards.command import NO_SIZE
from shared import EXAMPLES, TOP
from shared.trials import run

from .positions import hexpos

# Inputs of position-svg that are wrong, and why.
NO_PICTURES = [
    ("", "line 1: expected a row of the board, came none"),
    (". z\n", "line 1: expected ., b or w as cell 2 of row 1, came z"),
    ("hexpos 1\nsize 1\n", "line 2: wanted size ROWS COLUMNS, from 1 to 11"),
    ((EXAMPLES / "templates" / "ziggurat.hextemplate").read_text(),
     "line 1: wanted the text of a position, and this is that of a template"),
]


def try_pictures_of_positions(trials):
    """The stones of each position, and who is to move; and the same picture of the drawn board."""
    for path in sorted(EXAMPLES.glob("*.hexpos")):
        shown = f"examples/{path.name}"
        status, picture, errors = run(["tools/position-svg", shown])
        trials.want(f"the picture of {path.name}", (0, ""), (status, errors))
        _, drawn, _ = hexpos(["--draw"], path.read_text())
        trials.want(f"the stones in the picture of {path.name}", stones_drawn(drawn), stones_of(picture))
        trials.want(f"the caption of {path.name}", True, f">{drawn.splitlines()[-1].capitalize()}</text>" in picture)
    trials.want("the picture of a drawn board", (0, picture, ""), run(["tools/position-svg"], drawn))
    for source, told in NO_PICTURES:
        trials.want(f"the picture of {source!r}", (1, "", f"position-svg: {told}\n"),
                    run(["tools/position-svg"], source))
    trials.want("the picture of no file",
                (1, "", "position-svg: [Errno 2] No such file or directory: 'examples/none'\n"),
                run(["tools/position-svg", "examples/none"]))
    try_pictures_of_moves(trials)


def try_pictures_of_moves(trials):
    """The picture of a list of moves is that of the position behind the last one."""
    usage = "usage: tools/position-svg [--size N [COLUMNS]] [POSITION]\n"
    no_size = NO_SIZE.replace("hexpos:", "position-svg:")
    wanted = run(["tools/position-svg"], "b b\n. w\nwhite to move\n")
    for words, source in ((["--size", "2"], "a1 b2 b1"), (["--size", "2", "2"], "1. a1b2 2. b1\n"), ([], "#2,a1b2b1")):
        trials.want(f"position-svg {words} of {source!r}", wanted, run(["tools/position-svg", *words], source))
    with tempfile.TemporaryDirectory() as folder:
        path = pathlib.Path(folder, "x.moves")
        path.write_text("a1b2b1")
        trials.want("position-svg --size 2 of a file", wanted, run(["tools/position-svg", "--size", "2", str(path)]))
    trials.want("position-svg of moves without a size", (2, "", f"{no_size}\n"), run(["tools/position-svg"], "a1 b2"))
    swap = "line 1: move 2, :s, is refused: there is no swap here; write the game as it stands after it"
    trials.want("position-svg of a swap", (1, "", f"position-svg: {swap}\n"), run(["tools/position-svg"], "#2,a1:s"))
    for words in (["--help"], ["a", "b"], [""], ["--size"], ["--size", "12"], ["x", "--size", "2"]):
        trials.want(f"position-svg {words}", (2, "", usage), run(["tools/position-svg", *words]))


def stones_drawn(drawn):
    """The cells of a drawing, by whose stone is there."""
    rows = [line.split()[1:] for line in drawn.splitlines()[1:-1]]
    return {f"{'abcdefghijk'[column]}{row}": {"b": "black", "w": "white", ".": ""}[cell]
            for row, cells in enumerate(rows, 1) for column, cell in enumerate(cells)}


def stones_of(picture):
    return {cell: mark.strip() for mark, cell in re.findall('<g class="cell([^"]*)" data-cell="([^"]*)"', picture)}


# Pictures in docs/, and how they are made.
PICTURES = {"ziggurat.svg": ["tools/tree-html", "--template", "examples/templates/ziggurat.hextemplate"],
            "bridge-to-the-edge.svg": ["tools/tree-html", "--svg", "examples/bridge-to-the-edge.hextree"],
            "two-bridges.svg": ["tools/tree-html", "--svg", "examples/two-bridges.hextree"],
            "won-race.svg": ["tools/winning-moves", "--svg", "examples/won-race.hexpos"],
            "crates.svg": ["tools/crates-graph"]}


def try_pictures(trials):
    for name, words in PICTURES.items():
        status, made, errors = run(words)
        trials.want(f"docs/{name}, by {' '.join(words)}", (0, (TOP / "docs" / name).read_text(), ""),
                    (status, made, errors))


def try_floors(trials):
    """The picture of crates that stand on no floor, or on one below what they use."""
    text = (TOP / "crates.txt").read_text()
    for changed, told in [(text + "hx_new: hx_board\n", "hx_new is on no floor"),
                          (text.replace("hx_pn:", "hx_pm:"), "hx_pm is on no floor"),
                          (re.sub("(?m)^hx_openings:.*\n", "", text), "hx_openings is not in crates.txt"),
                          (text.replace("hx_law: ", "hx_law: hx_limits "),
                           "hx_law is on a floor below hx_limits, which it uses")]:
        with tempfile.TemporaryDirectory() as folder:
            copy = pathlib.Path(folder) / "tools" / "crates-graph"
            copy.parent.mkdir()
            copy.write_bytes((TOP / "tools" / "crates-graph").read_bytes())
            (copy.parent.parent / "crates.txt").write_text(changed)
            trials.want(f"a graph in which {told}", (1, "", f"crates-graph: {told}\n"),
                        run([sys.executable, str(copy)]))
    trials.want("a word", (2, "", "usage: tools/crates-graph > docs/crates.svg\n"), run(["tools/crates-graph", "x"]))


TRIED = (try_pictures_of_positions, try_pictures, try_floors)
