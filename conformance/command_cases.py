"""The cases of whole commands: those in the folders of commands/, its bad words, and the examples.

Those that no file holds, since they are long, or many and alike, are in command_tables.py.
"""
import pathlib
import re
import shlex
from typing import NamedTuple

COMMANDS = pathlib.Path(__file__).resolve().parent / "commands"
EXAMPLES = COMMANDS.parent.parent / "examples"

# A row of a table of examples: the file and what is answered.
ROW = re.compile(r"^\| ([a-z0-9-]+\.hex[a-z]+) \|.*\| `([a-z0-9 ]+)` \|$", re.M)

# The status of an answer of one line, by its first word.
STATUS = {"yes": 0, "no": 1, "unknown": 3, "bad": 4, "too": 8}


class Case(NamedTuple):
    """Either what must be written, byte by byte, or the winner of the tree that must be."""

    name: str
    words: list  # of bytes
    stdin: object  # bytes, or a function that makes them
    status: int
    stdout: bytes = None
    tree: str = None


def told(name, words, stdin, line):
    """A case whose answer is one line."""
    return Case(name, words.encode().split(), stdin, STATUS[line.split()[0]], f"{line}\n".encode())


# ---- Files


def content(path):
    return path.read_bytes() if path.exists() else None


def filed_case(folder):
    words = (folder / "args").read_bytes().split(b"\n")[:-1]
    winner = content(folder / "tree")
    return Case(name=str(folder.relative_to(COMMANDS)), words=words, stdin=content(folder / "stdin") or b"",
                status=int((folder / "status").read_text()), stdout=content(folder / "stdout"),
                tree=winner and winner.decode().strip())


def filed_cases():
    return [filed_case(path.parent) for path in sorted(COMMANDS.rglob("args"))]


def bytes_of(word):
    """A word of a list of bad words, in which an escape is a byte."""
    return word.encode("latin-1").decode("unicode_escape").encode("latin-1")


def bad_words():
    for line in (COMMANDS / "bad-words").read_text().splitlines():
        if line.startswith("hx"):
            yield Case(line, [bytes_of(word) for word in shlex.split(line)[1:]], b"", 2, b"bad words\n")


# ---- Examples


def example(name):
    return (EXAMPLES / name).read_bytes()


def rows_of(folder):
    """The examples that a README tells of, and what is answered to each."""
    return ROW.findall((folder / "README.md").read_text())


def root_of(tree):
    """The text of the position and mover of a tree's root."""
    lines = tree.decode().splitlines()
    _, black, white, mover, *_ = [line for line in lines if line.startswith("node ")][-1].split()
    return f"hexpos 1\n{lines[1]}\nblack {black}\nwhite {white}\nmove {mover}\n".encode()


def of_position(name, winner):
    for words in ("solve", "solve --plain-tree"):
        yield Case(f"{words} < examples/{name}", words.encode().split(), example(name), 0, tree=winner)


def of_tree(name, answer):
    """What `check` answers; `play` too, where a fault is told."""
    tree = example(name)
    if answer.startswith("yes"):
        yield Case(f"check < examples/{name}", [b"check"], tree, 0, f"{answer}\n".encode() + root_of(tree))
        return
    for word in ("check", "play"):
        yield told(f"{word} < examples/{name}", word, tree, answer)


def example_cases():
    for name, answer in rows_of(EXAMPLES):
        yield from (of_position if name.endswith(".hexpos") else of_tree)(name, answer)
    for name, answer in rows_of(EXAMPLES / "templates"):
        yield told(f"template < examples/templates/{name}", "template", example(f"templates/{name}"), answer)
    yield Case("htp < examples/session.htp", [b"htp"], example("session.htp"), 0, example("session.replies"))
