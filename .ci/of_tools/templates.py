"""Templates: those that tools/hexpos reads and draws, their pictures by tools/tree-html, and tools/minimal-template."""
import itertools
import re

from shared import EXAMPLES
from shared.trials import run

from .positions import EMPTY, WANTED, hexpos

TEMPLATES = EXAMPLES / "templates"

# Boards that are no templates: what is drawn, the lines behind it, and what standard error says of them.
TERMS = "owner black\nkind full\nends a1 last\n"
ENDS = "ends and two of them, each a cell of the board, first or last"
NO_TEMPLATES = [
    ("", "", "line 1: expected a row of the board, came none"),
    ("", TERMS, "line 4: expected a row of the board, came none"),
    ("b z\n", TERMS, "line 1: expected ., *, b or w as cell 2 of row 1, came z"),
    ("b *\n", "", "line 2: expected a line: owner black, or owner white, came none"),
    ("b *\n", "owner black\n", "line 3: expected a line: kind full, or kind semi, came none"),
    ("b *\n", "kind full\nowner black\n", f"line 4: expected a line: {ENDS}, came none"),
    ("b *\n", "owner green\n", "line 2: expected owner black, or owner white, came owner green"),
    ("b *\n", "owner\n", "line 2: expected owner black, or owner white, came owner"),
    ("b *\n", "kind Half\n", "line 2: expected kind full, or kind semi, came kind Half"),
    ("b *\n", "kind full semi\n", "line 2: expected kind full, or kind semi, came kind full semi"),
    ("b *\n", "owner black\nowner black\n", "line 3: expected one line with owner, came another one"),
    ("b *\n", "black to move\n", "line 2: expected owner, kind and ends of a template, came black to move"),
    ("b *\n", "ends a1\n", f"line 2: expected {ENDS}, came ends a1"),
    ("b *\n", TERMS.replace("a1", "a2"), f"line 4: expected {ENDS}, came a2"),
    ("b *\n", TERMS.replace("a1", "c1"), f"line 4: expected {ENDS}, came c1"),
    ("b *\n", TERMS.replace("a1", "top"), f"line 4: expected {ENDS}, came top"),
    ("b *\n", TERMS.replace("a1", "last"), "line 4: expected two ends that differ, came last last"),
    ("b *\n", TERMS.replace("last", "b1"), "line 4: expected ends that are no cells of the carrier, came b1"),
    ("w *\n", TERMS, "line 4: expected ends without a stone of the other player, came a1"),
    ("b *\n", "ends b1 last\nkind semi\nowner black\n",
     "line 2: expected ends that are no cells of the carrier, came b1"),
    ("b *\n", "what\n", "line 2: expected ., *, b or w as cell 2 of row 2, came h"),
]

# A text of a template on three cells in a row, in its lines and with these changes.
TEMPLATE = ["hextemplate 1\n", "size 1 3\n", f"black {EMPTY[1:]}1\n", f"white {EMPTY[1:]}4\n", "owner black\n",
            "kind semi\n", "ends a1 last\n", f"carrier {EMPTY[1:]}2\n"]
WANTED_OF_TEMPLATE = [*WANTED[:4], "owner black, or owner white", "kind full, or kind semi",
                      "ends VERTEX VERTEX, two that differ, without a stone of the other player",
                      "carrier MASK, of empty cells that are no ends", "no line more"]
CHANGES_OF_TEMPLATE = [
    (1, "hextemplate 2\n"), (1, "hextemplate 1 \n"), (2, "size 3\n"), (3, f"black {EMPTY[1:]}8\n"),
    (4, f"white {EMPTY[1:]}1\n"), (5, ""), (5, "owner\n"), (5, "owner green\n"), (5, "move black\n"),
    (6, "kind half\n"), (6, "kind full"), (7, "ends a1\n"), (7, "ends a1 a1\n"), (7, "ends first first\n"),
    (7, "ends a1 c1\n"), (7, "ends a1 d1\n"), (7, "ends a1 a2\n"), (7, "ends a01 last\n"), (7, "ends a1 top\n"),
    (7, "ends a1  last\n"), (8, f"carrier {EMPTY[1:]}1\n"), (8, f"carrier {EMPTY[1:]}4\n"),
    (8, f"carrier {EMPTY[1:]}8\n"), (8, f"carrier {EMPTY}\n\n"), (8, f"carrier {EMPTY[1:]}2"), (8, "carrier 2\n"),
    (9, "\n"), (9, "."),
]

# How boards stand in examples/templates/README.md: so many beside each other, each so wide.
BESIDE, DRAWN_WIDE = 3, 28


def try_templates(trials):
    """Each template is drawn as its page shows it, and what is drawn is read as the same template. Where one holds
    each cell is needed."""
    page = (TEMPLATES / "README.md").read_text()
    answers = dict(re.findall(r"^\| (\S+)\.hextemplate \|.*\| `(.*)` \|$", page, re.M))
    boards = []
    for stem, answer in answers.items():
        text = (TEMPLATES / f"{stem}.hextemplate").read_text()
        status, drawn, errors = hexpos(["--draw"], text)
        trials.want(f"drawing {stem}", (0, ""), (status, errors))
        trials.want(f"the drawn {stem}", (0, text, ""), hexpos(["--template"], drawn))
        boards.append([stem, *drawn.splitlines()])
        status, _, errors = run(["tools/tree-html", "--template"], text)
        trials.want(f"the picture of {stem}", (0, ""), (status, errors))
        if answer == "yes":
            trials.want(f"the least carrier of {stem}", (0, text, ""), run(["tools/minimal-template"], text))
    for first in range(0, len(boards), BESIDE):
        shown = drawn_beside(boards[first:first + BESIDE])
        trials.want(f"the boards from {boards[first][0]} on in examples/templates/README.md", True, shown in page)


def drawn_beside(boards):
    rows = ("".join(part.ljust(DRAWN_WIDE) for part in row) for row in itertools.zip_longest(*boards, fillvalue=""))
    return "".join(["```\n", *(f"{row.rstrip()}\n" for row in rows), "```\n"])


def try_drawn_templates(trials):
    """The lines of a template stand before or after its board, in any order; blanks and capitals are free."""
    text = "".join(TEMPLATE)
    for drawn in ("b*w\nowner black\nkind semi\nends a1 last\n",
                  "ends A1 Last\n\n a b c\n1 B * W\n KIND  semi\r\nowner\tblack"):
        trials.want(f"the template {drawn!r}", (0, text, ""), hexpos(["--template"], drawn))
    for board, terms, told in NO_TEMPLATES:
        trials.want(f"the template {board + terms!r}", (1, "", f"hexpos: {told}\n"),
                    hexpos(["--template"], board + terms))
    trials.want("a carrier in a position", (1, "", "hexpos: line 1: expected ., b or w as cell 2 of row 1, came *\n"),
                hexpos([], "b *\n"))
    for line, changed in CHANGES_OF_TEMPLATE:
        lines = [*TEMPLATE, ""]
        lines[line - 1] = changed
        text = "".join(lines)
        wrong = 9 if changed.endswith("\n\n") else line
        told = f"line {wrong}: wanted {WANTED_OF_TEMPLATE[wrong - 1]}"
        trials.want(f"line {line} {changed!r} of a template", (1, "", f"hexpos: {told}\n"), hexpos(["--draw"], text))
        told = f"line {wrong} is not of the text of a template"
        trials.want(f"tree-html --template and line {line} {changed!r}", (1, "", f"tree-html: {told}\n"),
                    run(["tools/tree-html", "--template"], text))


def try_least_carriers(trials):
    wide = "..b*.\n.****\n*****\nowner black\nkind full\nends c1 last\n"
    _, text, _ = hexpos(["--template"], wide)
    _, least, _ = run(["tools/minimal-template"], text)
    least_drawn = "  a b c d e\n1 . . b * .\n 2 . * * * .\n  3 * * * * .\nowner black\nkind full\nends c1 last\n"
    trials.want("a least carrier", (0, least_drawn, ""), hexpos(["--draw"], least))
    for stem, answer in (("bridge-without-a-cell", "no"), ("fourth-row", "unknown carrier 20")):
        trials.want(f"a least carrier of {stem}", (1, "", f"minimal-template: hx template says {answer!r}\n"),
                    run(["tools/minimal-template"], (TEMPLATES / f"{stem}.hextemplate").read_text()))
    trials.want("no template", (1, "", "minimal-template: line 1 is not of the text of a template\n"),
                run(["tools/minimal-template"]))
    trials.want("a word", (2, "", "usage: tools/minimal-template < TEMPLATE\n"), run(["tools/minimal-template", "x"]))


TRIED = (try_templates, try_drawn_templates, try_least_carriers)
