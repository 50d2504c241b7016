"""Why a tree is wrong, by tools/why-wrong: on each condition's case of conformance/, and its first wrong node."""
from conditions import RULES as CONDITIONS
from shared import EXAMPLES, TOP
from shared.trials import run
from tree_page.reasons import first_fault
from tree_page.records import NoTree

# What is said of some trees: the status, the output and the errors.
NOT_ANSWERED = """node 4: the cell b2 is to be answered and has no line (AreInOrder.each)
  a b
1 . b
 2 . *
white to move
Black is said to win, by the rule all.
"""
WHY_WRONG = [
    ("examples/move-without-an-answer.hextree", 0, NOT_ANSWERED, ""),
    ("examples/two-bridges.hextree", 0, "No node is wrong.\n", ""),
    ("examples/cut-off.hextree", 1, "", "why-wrong: line 9 is not of the text of a tree\n"),
    ("conformance/made/preamble/twelve-rows.hextree", 1, "",
     "why-wrong: line 2 is not of the text of a tree: a board has at most eleven rows "
     "(IsBoard, IsExtent: rows \u2264 11)\n"),
    ("examples/none", 1, "", "why-wrong: [Errno 2] No such file or directory: 'examples/none'\n"),
]


def try_reasons(trials):
    """The case of each condition gives the condition's name, and the first wrong node is the one that is due."""
    for condition in (one for rows in CONDITIONS.values() for one in rows if one.case):
        came = reason_told((TOP / "conformance" / f"{condition.case}.hextree").read_bytes())
        trials.want(f"why {condition.case} is wrong", (condition.name, True),
                    (condition.name, condition.name in came[1]))
    for path in sorted((TOP / "conformance").rglob("*.hextree")):
        answer = path.with_suffix(".answer").read_text().split("\n")[1]
        due = "" if answer.startswith("yes") else answer.replace("no text", "line").replace("no node", "node")
        if answer != "too long":
            trials.want(f"the first fault of {path.parent.name}/{path.stem}", due, reason_told(path.read_bytes())[0])
    for path, *wanted in WHY_WRONG:
        trials.want(f"why-wrong {path}", tuple(wanted), run(["tools/why-wrong", path]))
    tree = (EXAMPLES / "move-without-an-answer.hextree").read_text()
    trials.want("why-wrong of standard input", (0, NOT_ANSWERED, ""), run(["tools/why-wrong"], tree))
    for words in (["--help"], ["a", "b"], [""]):
        trials.want(f"why-wrong {words}", (2, "", "usage: tools/why-wrong [TREE]\n"), run(["tools/why-wrong", *words]))


def reason_told(content):
    """Where the first fault is, and the conditions that are named."""
    try:
        fault = first_fault(content)
    except NoTree as wrong:
        where, _, told = str(wrong).partition(" is not of the text of a tree")
        return where, [told.partition("(")[2][:-1]]
    return ("", []) if fault is None else (f"node {fault.number}", fault.reason.condition.split("; "))


TRIED = (try_reasons,)
