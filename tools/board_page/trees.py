"""Trees that `hx check` accepted, and what the page asks of them. They may be large, so no more is read than
that takes."""
import os
import re
from typing import Any, NamedTuple

from tree_page.records import cell_of, check, name

from .runs import content_of

END = 64  # bytes at the end of a tree, in which its last line stands
KEPT = 4  # trees; a new one takes the place of the oldest


class Tree(NamedTuple):
    """The file of a tree, behind which the moves of a game may be written, and how long the tree is in it."""
    file: Any
    length: int
    position: Any

    def content(self):
        return content_of(self.file, self.length)

    def with_moves(self, moves):
        """The file, with these moves behind the tree."""
        self.file.seek(self.length)
        self.file.truncate()
        self.file.write("".join(f"{move}\n" for move in moves).encode())
        self.file.flush()
        return self.file


def winner_told(file):
    """The winner that the last line of a tree names."""
    length = os.fstat(file.fileno()).st_size
    words = os.pread(file.fileno(), END, max(length - END, 0)).decode("latin-1").split()
    return words[-1] if words else ""


def move_told(content, size):
    """The move to which the root of a right tree leads, directly or by nodes by `fill` and `turned`, or nothing."""
    starts = [found.start() for found in re.finditer(b"^node ", content, re.M)]
    number, is_turned = len(starts) - 1, False
    while True:
        rule, *values = content[starts[number]:content.index(b"\n", starts[number])].decode().split(" ")[5:]
        if rule == "move":
            return turned_name(values[0], size) if is_turned else values[0]
        if rule not in ("fill", "turned"):
            return ""
        number, is_turned = int(values[-1]), is_turned != (rule == "turned")


def turned_name(word, size):
    cell, = check.members_of(size.turned(check.only(cell_of(word))))
    return name(cell)


class Trees:
    """The last trees, by the numbers of the questions that had them made."""

    def __init__(self):
        self.by_number = {}

    def keep(self, number, tree):
        self.by_number[number] = tree
        while len(self.by_number) > KEPT:
            self.by_number.pop(next(iter(self.by_number))).file.close()

    def get(self, number):
        return self.by_number.get(number)

    def close(self):
        for tree in self.by_number.values():
            tree.file.close()
        self.by_number.clear()
