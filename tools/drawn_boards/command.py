"""The words of tools/hexpos, and what it answers to them."""
import re
import sys
from typing import NamedTuple, Optional, Tuple

from drawn_boards.boards import Position, WrongLine
from drawn_boards.drawings import read_position, read_template
from drawn_boards.moves import has_head, is_list, read_moves
from drawn_boards.texts import LENGTH, drawing_of, read_text, text_of
from tree_page.records import check

USAGE = """usage: tools/hexpos [--template] [DRAWN]
       tools/hexpos [--moves] --size N [COLUMNS] [--first black|white] [MOVES]
       tools/hexpos --empty N [COLUMNS] [--first black|white]
       tools/hexpos --draw [TEXT]"""
NO_SIZE = "hexpos: a list of moves needs --size N, or --size ROWS COLUMNS"


class BadWords(Exception):
    """The words are none of these, or none for this input."""


class Asked(NamedTuple):
    kind: str = ""  # or --template, --draw, --moves or --empty
    size: Optional[Tuple[int, int]] = None
    first: Optional[str] = None
    path: Optional[str] = None


def content_of(path):
    """The bytes of a file, or of standard input where there is no name."""
    with open(path or 0, "rb") as source:
        return source.read()


def ended(words, read=content_of):
    """The status, the output and the errors of a run."""
    try:
        asked = asked_by(words)
        return 0, answer_to(asked, b"" if asked.kind == "--empty" else read(asked.path)), ""
    except BadWords as wrong:
        return 2, "", f"{wrong}\n"
    except (WrongLine, OSError) as wrong:
        return 1, "", f"hexpos: {wrong}\n"


def asked_by(words):
    """What the words ask for. Options stand before the name of a file."""
    asked, left = Asked(), list(words)
    while left and left[0].startswith("-"):
        asked = with_option(asked, left.pop(0), left)
    if len(left) > 1 or left == [""] or left and asked.kind == "--empty":
        raise BadWords(USAGE)
    if (asked.size or asked.first) and asked.kind != "--empty":
        if asked.kind not in ("", "--moves"):
            raise BadWords(USAGE)
        asked = asked._replace(kind="--moves")
    return asked._replace(path=left[0] if left else None)


def with_option(asked, option, left):
    """What is asked with one option more, which takes its values off the words that are left."""
    if option in ("--template", "--draw", "--moves") and not asked.kind:
        return asked._replace(kind=option)
    if option == "--empty" and not asked.kind and not asked.size:
        asked, option = asked._replace(kind=option), "--size"
    if option == "--size" and not asked.size:
        size = size_taken(left)
        if size:
            return asked._replace(size=size)
    if option == "--first" and not asked.first and left[:1] in (["black"], ["white"]):
        return asked._replace(first=left.pop(0))
    raise BadWords(USAGE)


def size_taken(left):
    """The rows and columns that one or two words tell, which are taken off, or nothing."""
    lengths = []
    while len(lengths) < 2 and left and re.fullmatch("[0-9]+", left[0]):
        lengths.append(left.pop(0))
    if not lengths or not all(re.fullmatch(LENGTH, length) for length in lengths):
        return None
    return int(lengths[0]), int(lengths[-1])


def answer_to(asked, content):
    """The text that is written. The input is read to its end before."""
    size = check.Size(*asked.size) if asked.size else None
    if asked.kind == "--draw":
        return drawing_of(read_text(content))
    if asked.kind == "--template":
        return text_of(read_template(content))
    if asked.kind in ("--moves", "--empty") or is_list(content):
        return text_of(moves_of(content, size, asked.first or "black"))
    return text_of(read_position(content))


def moves_of(content, size, first):
    if not size and not has_head(content):
        raise BadWords(NO_SIZE)
    return read_moves(content, size, first)


def position_in(content, size=None):
    """The position in any form that is read here: a text, which begins with its name, a drawn board or moves."""
    if not size and content.startswith(b"hex"):
        found = read_text(content)
        if not isinstance(found, Position):
            raise WrongLine(1, "wanted the text of a position, and this is that of a template")
        return found
    size = check.Size(*size) if size else None
    return moves_of(content, size, "black") if size or is_list(content) else read_position(content)


def refused(told, status=1):
    """Says on standard error why nothing is written. The status with which a script ends then."""
    print(told, file=sys.stderr)
    return status
