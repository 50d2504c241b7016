"""What people paste, read by the reader of tools/hexpos and by no other one, and the texts of what the page shows."""
from drawn_boards.boards import Position, WrongLine
from drawn_boards.command import ended
from drawn_boards.texts import drawing_of, read_text, text_of
from tree_page.drawing import drawn
from tree_page.records import names

NAMES = (b"hexpos", b"hextemplate")  # with which an exact text begins
TERMS = (b"owner", b"kind", b"ends")  # words of a drawn template, which no other form has


class NoReading(Exception):
    """What was pasted is nothing that hexpos reads."""


def text_by_hexpos(words, content):
    """What tools/hexpos writes with these words."""
    status, output, errors = ended(words, lambda path: content)
    if status != 0:
        raise NoReading(errors.strip().replace("hexpos: ", "", 1))
    return output.encode()


def exact_text(content, size):
    """The exact text of what is written here. Moves that do not tell their board are on one of this size."""
    content = content.lstrip() if content.lstrip().startswith(NAMES) else content
    if content.startswith(NAMES):
        content = content.rstrip() + b"\n"
        text_by_hexpos(["--draw"], content)
        return content
    if any(term in content.lower() for term in TERMS):
        return text_by_hexpos(["--template"], content)
    if size and ended([], lambda path: content)[0] == 2:  # hexpos wants to know the size
        return text_by_hexpos(["--moves", "--size", str(size.rows), str(size.columns)], content)
    return text_by_hexpos([], content)


def read(content, size=None):
    """The position or the template that is written here."""
    try:
        return read_text(exact_text(content.replace(b"\r\n", b"\n"), size))
    except WrongLine as wrong:
        raise NoReading(str(wrong)) from None


def told(found):
    """A position or a template, as the page takes it."""
    board = found.board
    shown = {"rows": board.size.rows, "columns": board.size.columns, "black": names(board.black).split(),
             "white": names(board.white).split()}
    if isinstance(found, Position):
        return {**shown, "mover": found.mover}
    return {**shown, "owner": found.owner, "kind": found.kind, "ends": list(found.ends),
            "carrier": names(found.carrier).split()}


def texts(found, marks):
    """The exact text of a position or of a template, and the drawn board, that of a position with its marks."""
    if not isinstance(found, Position):
        return {"text": text_of(found), "drawn": drawing_of(found)}
    return {"text": text_of(found), "drawn": f"{drawn(found.board, marks)}\n{found.mover} to move\n"}
