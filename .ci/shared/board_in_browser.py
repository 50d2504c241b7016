"""The page of tools/board in a browser: by the mouse, and by the keyboard alone."""
import json
import pathlib
import re
import xml.etree.ElementTree

from tree_page.positions import has_chain
from tree_page.records import NoTree, cell_of, check, read_nodes, record_of

from .boards import BRIDGE, LONG, RACE, empty, example, is_there, running, wait_for
from .driving import CONTROL, SHIFT, Browser, NoBrowser, found_browser
from .trials import TooLate

DESK, PHONE = (1280, 900), (390, 844)
RACE_LINK = "#4x4;black;b.../bwww/b.../w..b"
BRIDGE_LINK = "#4x4;white;.b../.bwb/wbw./...."
SVG = "{http://www.w3.org/2000/svg}"
MINUS = "\u2212"


class Page:
    """The page, as one who looks at it sees it."""

    def __init__(self, browser, board):
        self.browser, self.board = browser, board

    def open(self, link, rows, columns=None):
        self.browser.open(self.board.address + link)
        self.wait(f"document.querySelectorAll('#board [data-cell]').length === {rows * (columns or rows)}")
        self.wait("document.querySelectorAll('#moves li').length > 0")

    def wait(self, expression, what=None):
        self.browser.wait(expression, what)

    def click(self, *selectors):
        for selector in selectors:
            self.browser.click(selector if selector[0] in "#.[" else f"[data-cell={selector}]")

    def text(self, selector):
        return self.browser.value(f"textOf({json.dumps(selector)})")

    def wait_text(self, selector, part):
        try:
            self.wait(f"textOf({json.dumps(selector)}).includes({json.dumps(part)})")
        except TooLate:
            raise TooLate(f"{part!r} does not come in {selector}, which has {self.text(selector)!r}") from None

    def cells(self, mark):
        """The cells that have a mark."""
        return self.browser.value(f"namesOf('.cell.{mark}')")

    def wait_stones(self, black, white):
        wanted = json.dumps([black, white], separators=(",", ":"))
        self.wait(f"JSON.stringify([namesOf('.cell.black'), namesOf('.cell.white')]) === {json.dumps(wanted)}",
                  f"the stones {wanted}")

    def signs(self):
        return self.browser.value("Object.fromEntries(namesOf('[data-cell]').map((name) => [name,"
                                  " one(`[data-cell=${name}] .mark`).textContent]).filter(([, sign]) => sign))")

    def label(self, cell):
        return self.browser.value(f"one('[data-cell={cell}]').getAttribute('aria-label')")

    def moves(self):
        return self.browser.value("[...document.querySelectorAll('#moves button')].map((one) => one.textContent)")

    def paste(self, text):
        self.browser.value("one('#paste').open = true")
        self.browser.value(f"one('#pasted').value = {json.dumps(text)}")
        self.click("#read")

    def made(self, name):
        """A file that the page made, once it is whole."""
        path = pathlib.Path(self.browser.folder, name)
        wait_for(path.exists)
        content = path.read_bytes()
        path.unlink()
        return content


# ---- Stones

def try_stones(trials, page):
    page.open("", 7)
    trials.want("the first list of moves", ["Start"], page.moves())
    page.click("d4", "c4")
    page.wait_stones(["d4"], ["c4"])
    trials.want("the list of moves", ["Start", "Black d4", "White c4"], page.moves())
    trials.want("the address", "#7x7;black;......./......./......./..wb.../......./......./.......",
                page.browser.value("location.hash"))
    page.click("#undo")
    page.wait_stones(["d4"], [])
    page.click("#redo")
    page.wait_stones(["d4"], ["c4"])
    for tool, cell, stones in (("black", "a1", (["a1", "d4"], ["c4"])), ("white", "a1", (["d4"], ["a1", "c4"])),
                               ("away", "a1", (["d4"], ["c4"])), ("away", "a2", (["d4"], ["c4"])),
                               ("turns", "d4", (["d4"], ["c4"])), ("turns", "g7", (["d4", "g7"], ["c4"]))):
        page.browser.value(f"one('[name=tool][value={tool}]').click()")
        page.click(cell)
        page.wait_stones(*stones)
    page.click("#moves li:first-child button")
    page.wait_stones([], [])
    page.browser.value("one('[name=mover][value=white]').click()")
    page.click("b2")
    page.wait_stones([], ["b2"])
    page.browser.value("[one('#new-board').open, one('#rows').value, one('#columns').value] = [true, 3, 11]")
    page.click("#empty")
    page.wait("document.querySelectorAll('#board [data-cell]').length === 33")
    page.click("#undo")
    page.wait_stones([], ["b2"])


# ---- Questions

def try_questions(trials, page):
    page.open(RACE_LINK, 4)
    page.click("#ask-who")
    page.wait_text("#answer", "Black wins, by b3.")
    page.wait_text("#proof", "hx check accepted the tree")
    trials.want("the sign of the winning move", {"b3": "+"}, page.signs())
    page.click("#ask-moves")
    page.wait_text("#answer", "Black wins, by b3 alone.")
    page.wait("namesOf('.cell.loses').length === 7")
    trials.want("the signs", {"b3": "+", **dict.fromkeys("b1 c1 d1 c3 d3 b4 c4".split(), MINUS)}, page.signs())
    trials.want("what is said of cells", ["b3, empty, a move here wins", "c3, empty, a move here loses",
                                          "a1, Black's stone"], [page.label(cell) for cell in ("b3", "c3", "a1")])
    page.click("c3")
    page.wait_stones(["a1", "a2", "a3", "c3", "d4"], ["b2", "c2", "d2", "a4"])
    page.wait("textOf('#answer') === ''")
    trials.want("signs of another position", {}, page.signs())
    page.open(BRIDGE_LINK, 4)
    page.click("#ask-who")
    page.wait_text("#answer", "Black wins, whatever White plays.")


def try_stop(trials, page):
    page.open("#11x11;black;" + "/".join(["." * 11] * 11), 11)
    page.browser.value("one('#budget').value = 1099511627776")
    page.click("#ask-who")
    page.wait("/^[1-9][0-9.]* s: hx solve searches/.test(textOf('#progress'))", "the seconds of a question")
    child, = page.board.children()
    page.click("#stop")
    page.wait_text("#answer", "Stopped: it was stopped.")
    trials.want("the program that was stopped", False, is_there(child))
    page.browser.value("one('#budget').value = 0")
    page.click("#ask-who")
    page.wait_text("#answer", "Who wins was left open: 0 units were used up. Raise --budget")
    page.browser.value("one('#budget').value = 1099511627776")
    page.click("#ask-moves")
    child, = wait_for(page.board.children)
    page.click("f6")
    page.wait_stones(["f6"], [])
    wait_for(lambda: not is_there(child))
    page.click("#ask-game")
    child, = wait_for(page.board.children)
    page.browser.open("about:blank")
    wait_for(lambda: not is_there(child))


def try_hidden(trials, page):
    """A page that nobody sees holds no connection while it asks nothing, and keeps its question where it asks one."""
    hide = "Object.defineProperty(document, 'hidden', { value: %s, configurable: true }); " \
           "document.dispatchEvent(new Event('visibilitychange'))"
    page.open(RACE_LINK, 4)
    page.browser.value(hide % "true")
    page.board.post("ask", {"question": "who", **empty(11), "options": LONG})
    child, = wait_for(page.board.children)
    wait_for(lambda: not is_there(child))
    trials.want("a question beside a hidden page", "the page was gone", page.board.state()["why"])
    page.browser.value(hide % "false")
    page.click("#ask-who")
    page.wait_text("#answer", "Black wins, by b3.")


# ---- Why

def why_wanted(record, cell):
    """How what is said of a click begins, or nothing where it is played."""
    kind = next((kind for answered, kind, _ in record["lines"] if answered == cell), None)
    if kind == "child":
        return None
    if kind:
        return "Dominated: "
    is_inside = cell in record["carrier"].split()
    return f"A threat stands after {cell}: " if is_inside else f"{cell} is outside all threats: "


def try_why(trials, page, link, rows):
    """From the root down the first line each time. At the first node with lines each cell is clicked."""
    page.open(link, rows)
    page.click("#ask-why")
    page.wait("one('#panel h2')")
    nodes = read_nodes(page.board.call("GET", f"tree/{page.board.state()['tree']}")[2])
    looked, steps = False, 0
    while True:
        number = page.browser.value("Number(one('#panel').dataset.node)")
        record = record_of(nodes, number)
        for mark in ("carrier", "chosen"):
            trials.want(f"{mark} at node {number} of {link}", record[mark].split(), page.cells(mark))
        if record["rule"] == "all" and not looked:
            looked = True
            try_cells(trials, page, record)
        cell = record["chosen"] if record["rule"] == "move" else first_line(record)
        if not cell:
            break
        steps += 1
        page.click(cell)
        page.wait(f"document.querySelectorAll('.path li').length === {steps + 1}")
    page.click(".path li:first-child button")
    page.wait("document.querySelectorAll('.path li').length === 1")
    return looked, steps


def first_line(record):
    """The first cell that is answered by a child, where there is one."""
    return next((cell for cell, kind, _ in record.get("lines", []) if kind == "child"), None)


def try_cells(trials, page, record):
    length = page.browser.value("document.querySelectorAll('.path li').length")
    for cell in page.browser.value("namesOf('.cell:not(.black, .white, .black-fill, .white-fill)')"):
        wanted = why_wanted(record, cell)
        page.click(cell)
        if wanted is None:
            page.wait(f"document.querySelectorAll('.path li').length === {length + 1}")
            is_said = re.match(rf"(Black|White) {cell} is (answered by|played)", page.text("#why-said"))
            trials.want(f"what is said of {cell}", True, bool(is_said))
            page.click("#undo")
            page.wait(f"document.querySelectorAll('.path li').length === {length}")
        else:
            page.wait_text("#why-said", wanted)
            trials.count += 1


# ---- Games

def try_game(trials, page):
    """To its end, against the first empty cell each time; once a move is taken back."""
    page.open("#4x4;black;..../..../..../....", 4)
    page.click("#ask-game")
    page.wait_text("#game-said", "Black begins with")
    moves, is_undone = 0, False
    while "won" not in page.text("#game-said"):
        first = page.browser.value("one('.cell:not(.black, .white)').dataset.cell")
        page.click(first)
        moves += 1
        page.wait(f"namesOf('.cell.black').length === {moves + 1} && /answers/.test(textOf('#game-said'))")
        if moves == 2 and not is_undone:
            page.click("#undo")
            moves, is_undone = 1, True
            page.wait("namesOf('.cell.black').length === 2")
            page.wait_text("#game-said", "It is your turn, as White.")
    board = check.Board(check.Size(4, 4), *(sum(check.only(cell_of(cell)) for cell in page.cells(player))
                                            for player in ("black", "white")))
    trials.want("Black's chain at the end", True, has_chain(board, "black"))
    page.click("#panel .row button:last-child", "#ask-who")
    page.wait_text("#answer", "Black has joined the top with the bottom and won.")


# ---- In and out

def try_pasting(trials, page):
    page.open("", 7)
    drawn = "  a b\n1 b .\n 2 . w\nblack to move\n"
    for text, cells, stones in ((example("won-race.hexpos"), 16, (RACE["black"], RACE["white"])),
                                (drawn, 4, (["a1"], ["b2"])), ("1. a1 b2 2. b1", 4, (["a1", "b1"], ["b2"])),
                                ("1\\.  B\\1\n 2\\W  .\\2\nblack to move", 4, (["b1"], ["a2"])),
                                ("o x\nx .\nwhite to move", 4, (["b1", "a2"], ["a1"]))):
        page.paste(text)
        page.wait(f"document.querySelectorAll('#board [data-cell]').length === {cells}")
        page.wait_stones(*stones)
        trials.count += 1
    wrong = "<img src=x onerror=wrongs.push(1)>\n. ."
    page.paste(wrong)
    page.wait_text("#read-wrong", "line 1: expected")
    page.wait_stones(["b1", "a2"], ["a1"])
    page.paste(example("templates/ziggurat.hextemplate"))
    page.wait("namesOf('.cell.carrier').length === 8")
    trials.want("the cells of a template", (sorted(BRIDGE["carrier"]), ["c2"], 1), (
        sorted(page.cells("carrier")), page.cells("chosen"),
        page.browser.value("document.querySelectorAll('.side.chosen').length")))
    page.click("#try-pattern")
    page.wait_text("#answer", "Yes: Black can join c2 with the bottom by these 8 cells, though White moves first.")
    page.click("d2")
    page.wait_text("#pattern-told", "7 cells marked. Ends: c2 and the bottom.")
    page.click("#try-pattern")
    page.wait_text("#answer", "No: Black cannot join")
    page.click("#leave-pattern")
    page.wait("one('#pattern').hidden")


def try_taking(trials, page):
    page.open(RACE_LINK, 4)
    page.click("#ask-moves")
    page.wait_text("#answer", "by b3 alone")
    page.wait("namesOf('.cell.loses').length === 7")
    page.browser.value("one('#take-along').open = true")
    for selector, part in (("#as-text", example("won-race.hexpos")),
                           ("#as-drawn", " 2 b w w w\n  3 b + - -\n   4 w - - b\nblack to move\n"),
                           ("#as-link", page.board.address + RACE_LINK)):
        page.click(selector)
        page.wait(f"one('#taken').value.endsWith({json.dumps(part)})", f"{part!r} of {selector}")
        trials.count += 1
    page.click("#as-svg")
    picture = xml.etree.ElementTree.fromstring(page.made("board.svg"))
    signs = [text.text for text in picture.iter(f"{SVG}text") if text.get("class") == "mark" and text.text]
    trials.want("the signs in the SVG", ["+", *[MINUS] * 7], sorted(signs))
    trials.want("the styles of the SVG", True, ".cell.wins" in picture.find(f"{SVG}style").text
                and "ring" not in [one.get("class") for one in picture.iter()])
    page.click("#as-png")
    content = page.made("board.png")
    wide, high = (2 * round(float(picture.get(name))) for name in ("width", "height"))
    trials.want("the PNG", (b"\x89PNG\r\n\x1a\n", wide, high),
                (content[:8], int.from_bytes(content[16:20], "big"), int.from_bytes(content[20:24], "big")))


# ---- How it looks, and by the keyboard

def try_views(trials, page, folder):
    """Nothing hangs over, and the page is as light or dark as it is asked to be."""
    for scheme in ("light", "dark"):
        for wide, high in (DESK, PHONE):
            page.browser.show(wide, high, scheme)
            for link, rows in ((RACE_LINK, 4), ("#11x11;black;" + "/".join(["." * 11] * 11), 11)):
                page.open(link, rows)
                if rows == 4:
                    page.click("#ask-moves")
                    page.wait("namesOf('.cell.loses').length === 7")
                name = f"{rows}-{wide}-{scheme}"
                fits, board, light = page.browser.value("""(() => {
                    const box = document.querySelector("#board svg").getBoundingClientRect();
                    const ground = getComputedStyle(document.body).backgroundColor.match(/\\d+/g).map(Number);
                    return [document.documentElement.scrollWidth <= innerWidth,
                            box.width > 0.35 * innerWidth && box.right <= innerWidth, Math.min(...ground) > 128];
                })()""")
                trials.want(f"the view {name}", (True, True, scheme == "light"), (fits, board, light))
                if folder:
                    page.browser.picture(pathlib.Path(folder, f"{name}.png"))
    page.browser.show(*DESK)


def tab_to(page, selector, back=False):
    """Goes on by the tabulator, or back, until an element has the focus."""
    for _ in range(120):
        page.browser.press("Tab", SHIFT if back else 0)
        if page.browser.value(f"document.activeElement.matches({json.dumps(selector)})"):
            return
    raise TooLate(f"{selector} is not reached by the tabulator")


def focused(page):
    return page.browser.value("document.activeElement.dataset.cell")


def try_keyboard(trials, page):
    """Stones, undo, a question, its reasons, a game and a pasted board without the mouse."""
    page.browser.show(*PHONE, "dark")
    page.open("#4x4;black;..../..../..../....", 4)
    try_keys_of_board(trials, page)
    try_keys_of_questions(page)
    tab_to(page, "#paste summary")
    page.browser.press("Enter")
    tab_to(page, "#pasted")
    page.browser.write(". b\nw .\nblack to move")
    tab_to(page, "#read")
    page.browser.press("Enter")
    page.wait_stones(["b1"], ["a2"])
    page.browser.show(*DESK)


def try_keys_of_board(trials, page):
    tab_to(page, "[data-cell]")
    trials.want("the cell that is reached first", "a1", focused(page))
    for key in ("ArrowRight", "ArrowDown", "ArrowLeft", "ArrowUp", "ArrowUp", "ArrowDown", "ArrowRight"):
        page.browser.press(key)
    trials.want("the cell that arrow keys lead to", "b2", focused(page))
    page.browser.press("Enter")
    page.wait_stones(["b2"], [])
    page.browser.press("ArrowRight")
    page.browser.press(" ")
    page.wait_stones(["b2"], ["c2"])
    page.browser.press("z", CONTROL)
    page.wait_stones(["b2"], [])
    page.browser.press("z", CONTROL | SHIFT)
    page.wait_stones(["b2"], ["c2"])
    trials.want("the ring around the cell", True,
                page.browser.value("getComputedStyle(one('.ring')).stroke !== 'none'"))


def try_keys_of_questions(page):
    tab_to(page, "#ask-who")
    page.browser.press("Enter")
    page.wait_text("#answer", "Black wins, by")
    tab_to(page, "#ask-why")
    page.browser.press(" ")
    page.wait("one('#panel h2')")
    tab_to(page, "#panel button.link")
    page.browser.press("Enter")
    page.wait("document.querySelectorAll('.path li').length === 2")
    tab_to(page, "#ask-game", back=True)
    page.browser.press("Enter")
    page.wait_text("#game-said", "Black begins with")
    tab_to(page, ".cell", back=True)
    while page.browser.value("document.activeElement.matches('.black, .white')"):
        page.browser.press("ArrowDown")
    page.browser.press("Enter")
    page.wait("/answers/.test(textOf('#game-said'))")


def try_names(trials, page):
    """What a screen reader is told: a name of each cell, and of each button and field."""
    page.open(RACE_LINK, 4)
    nodes = [node for node in page.browser.call("Accessibility.getFullAXTree")["nodes"] if not node.get("ignored")]
    named = [(node["role"]["value"], node.get("name", {}).get("value", "")) for node in nodes]
    buttons = [name for role, name in named if role == "button"]
    stones = {**dict.fromkeys(RACE["black"], "Black's stone"), **dict.fromkeys(RACE["white"], "White's stone")}
    cells = [f"{letter}{row}" for row in range(1, 5) for letter in "abcd"]
    trials.want("the names of cells", [f"{cell}, {stones.get(cell, 'empty')}" for cell in cells],
                [name for name in buttons if re.match("[a-d][1-4], ", name)])
    trials.want("what has no name", [], [role for role, name in named
                                         if role in ("button", "textbox", "spinbutton", "radio", "checkbox",
                                                     "combobox") and not name])
    trials.want("the names of questions", True, {"Who wins?", "Which moves win?", "Why?", "Play against it",
                                                 "Is this pattern safe?"} <= set(buttons))


def try_page(trials, page, folder):
    page.browser.show(*DESK)
    tried = [("stones", lambda: try_stones(trials, page)), ("questions", lambda: try_questions(trials, page)),
             ("stop", lambda: try_stop(trials, page)), ("a hidden page", lambda: try_hidden(trials, page)),
             ("why", lambda: try_whys(trials, page)), ("a game", lambda: try_game(trials, page)),
             ("pasting", lambda: try_pasting(trials, page)),
             ("taking along", lambda: try_taking(trials, page)), ("views", lambda: try_views(trials, page, folder)),
             ("the keyboard", lambda: try_keyboard(trials, page)), ("names", lambda: try_names(trials, page))]
    for name, tries in tried:
        try:
            tries()
            trials.want(f"what goes wrong in the page at {name}", [], page.browser.value("window.wrongs || []"))
        except (TooLate, ValueError, NoTree) as wrong:
            trials.want(name, "to its end", str(wrong))


def try_whys(trials, page):
    """The third position's tree has lines of each kind at its first node, and the second one's is gone down through
    some nodes."""
    came = [try_why(trials, page, *asked) for asked in (
        (RACE_LINK, 4), ("#5x5;white;...../b..../...../...../.....", 5),
        ("#6x6;white;....../..b.../....../....../....../......", 6))]
    trials.want("whether nodes with lines were looked at, and how far lines were gone down",
                [(False, True), (True, True), (True, True)], [(looked, steps > 0) for looked, steps in came])
    try_why_in_game(trials, page)


def try_why_in_game(trials, page):
    """The reasons are those of the position that is shown, though another one was asked about before."""
    page.open("#4x4;black;..../..../..../....", 4)
    page.click("#ask-who")
    page.wait_text("#answer", "Black wins, by")
    page.click("#ask-game")
    page.wait_text("#game-said", "Black begins with")
    page.click("a1")
    page.wait_text("#game-said", "Black answers")
    stones = page.cells("black")
    page.click("#ask-why")
    page.wait_text("#panel h2", "Why Black wins")
    trials.want("the stones whose reasons are shown", (stones, ["a1"]), (page.cells("black"), page.cells("white")))


def try_browser(trials, words, folder):
    """The name of the browser that ran the page, or nothing where none is found or it does not run."""
    program = found_browser(words)
    if not program:
        return None
    browser = Browser(program)
    try:
        browser.begin()
        with running() as board:
            try_page(trials, Page(browser, board), folder)
        return pathlib.Path(program).name
    except NoBrowser as wrong:
        print(f"board: {program} does not run the page: {wrong}")
        return None
    finally:
        browser.close()
