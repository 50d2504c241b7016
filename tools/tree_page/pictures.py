"""A board as a picture: hexagons with coordinates, coloured sides, stones, the marks of a record, and a key to them.

A mark of a cell is a class of it, and board.css says how it looks."""
import html
import math
import pathlib
import textwrap

from tree_page.records import LETTERS, cell_of, check, name

STYLE = pathlib.Path(__file__).with_name("board.css")
MARKS = ("black", "white", "carrier", "chosen", "black-fill", "white-fill")
# What is written on a cell, and the mark that comes with it: the move wins, loses, or was left open.
SIGNS = {"+": "wins", "\u2212": "loses", "?": "left-open"}
SIGN_STYLE = pathlib.Path(__file__).resolve().parent.parent / "board_page" / "marks.css"
WIDE = 42.0  # of a cell
EDGE = WIDE / math.sqrt(3)
MARGIN = 38.0  # above and on the left, where the coordinates stand
NARROW = 14.0  # the other two margins
LETTER_WIDE, LINE_HIGH, MOST_LETTERS = 8.0, 20.0, 56  # of a caption
KEY_HIGH, KEY_SCALE, KEY_TEXT = 24.0, 0.4, 26.0  # of a line of the key; of its cell; how far right its words begin
# The corners of a cell from its middle, clockwise from the top.
CORNERS = [(0, -EDGE), (WIDE / 2, -EDGE / 2), (WIDE / 2, EDGE / 2), (0, EDGE), (-WIDE / 2, EDGE / 2),
           (-WIDE / 2, -EDGE / 2)]
TOP, UPPER_RIGHT, LOWER_RIGHT, BOTTOM, LOWER_LEFT, UPPER_LEFT = range(6)


def middle(cell):
    """Each row stands half a cell further to the right than the one above."""
    row, column = divmod(cell, check.WIDTH)
    return MARGIN + WIDE * (column + row / 2 + 0.5), MARGIN + EDGE * (1.5 * row + 1)


def spelled(points):
    return " ".join(f"{x:.1f},{y:.1f}" for x, y in points)


def border(cells, corners):
    """The line along some cells, by these corners of each."""
    return spelled((x + CORNERS[corner][0], y + CORNERS[corner][1])
                   for x, y in map(middle, cells) for corner in corners)


def sides(size, chosen):
    """White's two sides, with an edge, and over their ends Black's. The chosen ones are told by player and vertex."""
    left, top = [check.WIDTH * row for row in range(size.rows)], list(range(size.columns))
    right, bottom = [cell + size.columns - 1 for cell in left], [cell + left[-1] for cell in top]
    for player, vertex, cells, corners in [("white", check.FIRST, left, [UPPER_LEFT, LOWER_LEFT]),
                                           ("white", check.LAST, right, [UPPER_RIGHT, LOWER_RIGHT]),
                                           ("black", check.FIRST, top, [UPPER_LEFT, TOP, UPPER_RIGHT]),
                                           ("black", check.LAST, bottom, [LOWER_LEFT, BOTTOM, LOWER_RIGHT])]:
        points = border(cells, corners)
        if player == "white":
            yield f'<polyline class="edge" points="{points}"/>'
        mark = " chosen" if (player, vertex) in chosen else ""
        yield f'<polyline class="side {player}{mark}" points="{points}"/>'


def coordinates(size):
    for column in range(size.columns):
        x, y = middle(column)
        yield f'<text x="{x:.1f}" y="{y - EDGE - 11:.1f}">{LETTERS[column]}</text>'
    for row in range(size.rows):
        x, y = middle(check.WIDTH * row)
        yield f'<text x="{x - WIDE / 2 - 18:.1f}" y="{y + 5:.1f}">{row + 1}</text>'


HEXAGON = f'<polygon points="{spelled(CORNERS)}"/><circle r="{EDGE * 0.62:.1f}"/>'


def cell_drawn(cell, marks, sign=""):
    x, y = middle(cell)
    drawn = f'<text class="mark" y="7">{sign}</text>' if sign else ""
    return (f'<g class="{" ".join(["cell", *marks])}" data-cell="{name(cell)}" transform="translate({x:.1f},{y:.1f})">'
            f'<title>{name(cell)}</title>{HEXAGON}{drawn}</g>')


def cells(size, record, signs):
    named = {mark: set(record.get(mark, "").split()) for mark in (*MARKS, *SIGNS.values())}
    for cell in size.cells:
        yield cell_drawn(cell, [mark for mark in (*MARKS, *SIGNS.values()) if name(cell) in named[mark]],
                         signs.get(name(cell), ""))


def chain_drawn(record):
    """The chain of a record that tells one, from side to side. In the page it is none yet."""
    if "chain" not in record:
        return []
    middles = list(map(middle, map(cell_of, record["chain"].split())))
    if middles:
        x, y = (0, EDGE) if record["winner"] == "black" else (WIDE / 2, 0)
        (left, top), (right, bottom) = middles[0], middles[-1]
        middles = [(left - x, top - y), *middles, (right + x, bottom + y)]
    return [f'<polyline class="chain" points="{spelled(middles)}"/>']


def mark_drawn(mark, x, y):
    """A mark as a key shows it."""
    if mark == "chain":
        return f'<polyline class="chain" points="{spelled([(x - 7, y), (x + 7, y)])}"/>'
    return f'<g class="cell {mark}" transform="translate({x:.1f},{y:.1f}) scale({KEY_SCALE})">{HEXAGON}</g>'


def key_drawn(key, high):
    """Under the board a line for each mark: how it looks, and what it says."""
    for place, (mark, words) in enumerate(key):
        y = high + KEY_HIGH * (place + 0.4)
        yield mark_drawn(mark, NARROW + 9, y)
        yield f'<text class="key" x="{NARROW + KEY_TEXT:.1f}" y="{y + 5:.1f}">{html.escape(words, quote=False)}</text>'


def key_of(record):
    """What each mark in the picture of a root says."""
    winner, opponent = record["winner"].capitalize(), check.OTHER[record["winner"]].capitalize()
    is_all = record["rule"] == "all"
    said = {"chosen": f"moves of {opponent}'s to be answered"
            if is_all else f"{record['chosen']}, {winner}'s winning move",
            "carrier": f"cells of {winner}'s {'threats' if is_all else 'link'}",
            "black-fill": "filled in with Black's stones",
            "white-fill": "filled in with White's stones", "chain": f"{winner}'s chain"}
    return [(mark, words) for mark, words in said.items() if record.get(mark)]


def wrapped(line):
    """A line of a caption, in pieces that are not much wider than a board."""
    return textwrap.wrap(line, MOST_LETTERS) or [""]


def caption_drawn(lines, wide, high):
    for place, line in enumerate(lines):
        yield f'<text x="{wide / 2:.1f}" y="{high + LINE_HIGH * (place + 0.5):.1f}">{html.escape(line)}</text>'


def label_of(size, record):
    """What the picture shows, for who does not see it."""
    stones = "; ".join(f"{player.capitalize()} on {record.get(player) or 'no cell'}" for player in check.OTHER)
    mover = record.get("mover")
    return f"A board of {size.rows} by {size.columns}: {stones}.{f' {mover.capitalize()} is to move.' if mover else ''}"


def picture(size, record, chosen_sides=(), caption=(), key=(), signs=None):
    """The board of a record, as a picture that needs no other file. A key and the lines of a caption stand under it.
    The signs are texts on cells, by their names."""
    caption = [piece for line in caption for piece in wrapped(line)]
    style = STYLE.read_text() + (SIGN_STYLE.read_text() if signs else "")
    board_wide = MARGIN + WIDE * (size.columns + (size.rows - 1) / 2) + NARROW
    board_high = MARGIN + EDGE * (1.5 * size.rows + 0.5) + NARROW
    wide = max([board_wide, *(2 * NARROW + LETTER_WIDE * len(line) for line in caption),
                *(2 * NARROW + KEY_TEXT + LETTER_WIDE * len(words) for _, words in key)])
    key_high = KEY_HIGH * len(key)
    high = board_high + key_high + LINE_HIGH * len(caption)
    return "\n".join([
        f'<svg xmlns="http://www.w3.org/2000/svg" viewBox="0 0 {wide:.0f} {high:.0f}" width="{wide:.0f}" '
        f'height="{high:.0f}" role="img" aria-label="{label_of(size, record)}">',
        f"<style>\n{style}</style>", '<rect class="ground" width="100%" height="100%" rx="8"/>',
        *sides(size, chosen_sides), *coordinates(size), *cells(size, record, signs or {}), *chain_drawn(record),
        *key_drawn(key, board_high), *caption_drawn(caption, wide, board_high + key_high), "</svg>\n"])
