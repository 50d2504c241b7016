"""The page of a tree: one file with the text of the tree in it, of which page.js reads a node when it is looked at.

So a page opens as fast with a large tree. The text has lower-case letters, digits, blanks and line ends alone, and so
stands in the page as it is."""
import html
import json
import pathlib
import string

from tree_page.pictures import EDGE, WIDE, mark_drawn, picture
from tree_page.records import names

HERE = pathlib.Path(__file__).parent
SCRIPTS = ("tree.js", "links.js", "records.js", "telling.js", "page.js")
KEY = [("chosen", "a move of the winner's, or moves that must be answered"),
       ("carrier", "the cells of a link, or of all threats together"),
       ("black-fill", "a stone that is filled in, here Black's"), ("chain", "the winner's chain"),
       ("picked", "the move of the marked line")]

JUDGED = "Whether each node is right, <code>hx check</code> says."


def key_drawn():
    return "\n".join(f'<li><svg width="22" height="22" viewBox="0 0 22 22">{mark_drawn(mark, 11, 11)}</svg>{words}</li>'
                     for mark, words in KEY)


def page(title, content, heading, fault=None):
    """The page of these bytes, which are the text of a tree. The heading is its root's, and its board stands in the
    page. The fault is that of its first wrong node, where it has one."""
    board = heading.board
    record = {"black": names(board.black), "white": names(board.white), "mover": heading.mover, "chain": ""}
    told = fault and {"number": fault.number, "words": fault.reason.words, "condition": fault.reason.condition}
    return string.Template((HERE / "page.html").read_text()).substitute(
        title=html.escape(title), style=(HERE / "page.css").read_text(), board=picture(board.size, record),
        key=key_drawn(),
        fault=json.dumps(told), fault_place='<p id="fault" class="fault" role="alert"></p>\n' if fault else "",
        judged="It is wrong at the node that is marked; those behind it were not looked at." if fault else JUDGED,
        wide=WIDE, edge=f"{EDGE:.3f}", tree=content.decode(),
        script="\n".join((HERE / name).read_text() for name in SCRIPTS))
