"""The texts of positions and of templates (docs/formats.md), read exactly, written, and drawn."""
import re

from drawn_boards.boards import Position, Template, WrongLine, cell_of
from tree_page.drawing import drawn
from tree_page.records import check

LENGTH = "([1-9]|10|11)"


class Lines:
    """The lines of a text, one after the other. What is wanted of the last one is kept for more questions."""

    def __init__(self, content):
        *self.ended, self.rest = content.decode("latin-1").split("\n")
        self.number, self.wanted = 0, ""

    def next(self, wanted, form):
        """The groups of the next line, which must be of this form, and ended."""
        self.number, self.wanted = self.number + 1, wanted
        found = re.fullmatch(form, self.ended[self.number - 1]) if self.number <= len(self.ended) else None
        self.require(found)
        return found.groups()

    def require(self, is_so):
        if not is_so:
            raise WrongLine(self.number, f"wanted {self.wanted}")

    def next_mask(self, word, told, cells):
        """A mask of some of these cells."""
        digits, = self.next(f"{word} MASK, {told}", f"{word} ([0-9a-f]{{32}})")
        mask = int(digits, 16)
        self.require(mask & ~cells == 0)
        return mask

    def end(self):
        self.number, self.wanted = self.number + 1, "no line more"
        self.require(self.number > len(self.ended) and self.rest == "")


# ---- Reading

def read_text(content):
    """The position or the template of a text."""
    lines = Lines(content)
    kind, = lines.next("hexpos 1, or hextemplate 1", "hex(pos|template) 1")
    size = check.Size(*map(int, lines.next("size ROWS COLUMNS, from 1 to 11", f"size {LENGTH} {LENGTH}")))
    black = lines.next_mask("black", "of cells on the board", size.all_cells)
    white = lines.next_mask("white", "of cells on the board without a black stone", size.all_cells & ~black)
    board = check.Board(size, black, white)
    found = Position(board, *lines.next("move black, or move white",
                                        "move (black|white)")) if kind == "pos" else template_on(lines, board)
    lines.end()
    return found


def template_on(lines, board):
    owner, = lines.next("owner black, or owner white", "owner (black|white)")
    kind, = lines.next("kind full, or kind semi", "kind (full|semi)")
    ends = lines.next("ends VERTEX VERTEX, two that differ, without a stone of the other player",
                      "ends ([^ ]+) ([^ ]+)")
    cells = [cell_of(word, board.size) for word in ends if word not in ("first", "last")]
    others = board.of(check.OTHER[owner])
    lines.require(ends[0] != ends[1] and all(cell is not None and not check.has(others, cell) for cell in cells))
    carrier = lines.next_mask("carrier", "of empty cells that are no ends",
                              board.empty() & ~sum(map(check.only, cells)))
    return Template(board, owner, kind, ends, carrier)


# ---- Writing

def text_of(found):
    board = found.board
    lines = [f"size {board.size.rows} {board.size.columns}", f"black {board.black:032x}", f"white {board.white:032x}"]
    if isinstance(found, Position):
        lines = ["hexpos 1", *lines, f"move {found.mover}"]
    else:
        lines = ["hextemplate 1", *lines, *terms_of(found), f"carrier {found.carrier:032x}"]
    return "".join(line + "\n" for line in lines)


def drawing_of(found):
    is_position = isinstance(found, Position)
    marks = {} if is_position else dict.fromkeys(check.members_of(found.carrier), "*")
    lines = [drawn(found.board, marks), *([f"{found.mover} to move"] if is_position else terms_of(found))]
    return "".join(line + "\n" for line in lines)


def terms_of(template):
    return [f"owner {template.owner}", f"kind {template.kind}", f"ends {' '.join(template.ends)}"]
