"""The requests of the page, and who may make them.

Each request names the token of the address that was opened, this server as its host and, where it names one, this
server as its origin. So no other site and no one who has not seen the address gets an answer, and no answer allows
another site to read it."""
import hmac
import http
import http.server
import io
import json
import pathlib
import re
import time

from tree_page.pictures import EDGE, WIDE, picture

from . import asked, pasted, questions
from .asked import WrongRequest, require
from .connections import MOST_BODY

HERE = pathlib.Path(__file__).resolve().parent
PAGES = HERE.parent / "tree_page"
TYPES = {".html": "text/html", ".css": "text/css", ".js": "text/javascript", ".json": "application/json",
         ".svg": "image/svg+xml"}
SCRIPTS = ("page", "board", "position", "questions", "why", "game", "pattern", "pictures", "elements")
FILES = {"": HERE / "page.html", "page.css": HERE / "page.css", "marks.css": HERE / "marks.css",
         "board.css": PAGES / "board.css", **{f"{script}.js": HERE / f"{script}.js" for script in SCRIPTS}}
# What the pages of trees have, in the order in which they have it: reader.js holds it together.
READER = ("tree.js", "links.js", "records.js", "telling.js")
HEADERS = {
    "Content-Security-Policy": "default-src 'none'; script-src 'self'; style-src 'self'; connect-src 'self'; "
                               "img-src 'self' blob: data:; base-uri 'none'; form-action 'none'; "
                               "frame-ancestors 'none'",
    "Cross-Origin-Resource-Policy": "same-origin", "Cross-Origin-Opener-Policy": "same-origin",
    "X-Content-Type-Options": "nosniff",
    "Referrer-Policy": "no-referrer", "Cache-Control": "no-store",
}


class Refused(Exception):
    """A request that is not answered: its status, and why."""

    def __init__(self, status, why):
        super().__init__(why)
        self.status = status


class Answers(http.server.BaseHTTPRequestHandler):
    """One request, of which all is there, and its answer."""

    def setup(self):
        self.rfile, self.wfile = io.BytesIO(bytes(self.request.received)), io.BytesIO()

    def finish(self):
        self.request.send(self.wfile.getvalue())

    def answer_all(self):
        try:
            self.want_ours()
            self.answer_path(self.path.split("/", 2)[2])
        except WrongRequest as wrong:
            self.reply(400, "text/plain", f"{wrong}\n")
        except Refused as refused:
            self.reply(refused.status, "text/plain", f"{refused}\n")

    do_GET = do_POST = do_HEAD = do_PUT = do_DELETE = do_PATCH = do_OPTIONS = do_TRACE = do_CONNECT = answer_all

    # ---- Who may ask

    def want_ours(self):
        ours = self.server.host
        if self.headers.get_all("Host") != [ours]:
            raise Refused(403, "This is another host.")
        if self.headers.get_all("Origin", [f"http://{ours}"]) != [f"http://{ours}"]:
            raise Refused(403, "Another site asks.")
        parts = self.path.split("/", 2)
        if len(parts) < 3 or not hmac.compare_digest(parts[1].encode("utf-8", "surrogateescape"),
                                                     self.server.token.encode()):
            raise Refused(403, "Open the whole address that tools/board wrote.")

    # ---- What is asked

    def answer_path(self, path):
        self.server.seen = time.monotonic()
        if path in CALLS:
            self.want_method("POST")
            self.reply(200, "application/json", json.dumps(CALLS[path](self.server, asked.object_of(self.body()))))
        elif path == "events":
            self.want_method("GET")
            self.keep_for_events()
        else:
            self.want_method("GET")
            self.reply(200, *self.found(path))

    def want_method(self, method):
        if self.command != method:
            raise Refused(405, f"This wants {method}.")

    def body(self):
        length = self.headers.get("Content-Length", "")
        if not (length.isascii() and length.isdigit()):
            raise Refused(411, "The length of the body is missing.")
        if int(length) > MOST_BODY:
            raise Refused(413, f"The body has more than {MOST_BODY} bytes.")
        if self.headers.get_content_type() != "application/json":
            raise Refused(415, "The body is to be JSON.")
        return self.rfile.read(int(length))

    def keep_for_events(self):
        self.request.is_stream = True
        self.head(200, "text/event-stream")
        self.wfile.write(b"retry: 1000\n\n" + self.server.event())

    def found(self, path):
        """The type and the content of what is read."""
        name, _, rest = path.partition("/")
        if path in FILES:
            return TYPES[FILES[path].suffix], FILES[path].read_bytes()
        if path in READS:
            return READS[path](self.server)
        if name in PLACES and rest:
            return PLACES[name](self.server, rest)
        raise Refused(404, "There is no such page.")

    # ---- What is answered

    def reply(self, status, kind, content):
        content = content.encode() if isinstance(content, str) else content
        self.head(status, kind, len(content))
        self.wfile.write(content)

    def head(self, status, kind, length=None):
        self.send_response(status)
        for name, value in HEADERS.items():
            self.send_header(name, value)
        self.send_header("Content-Type", f"{kind}; charset=utf-8")
        if length is not None:
            self.send_header("Content-Length", str(length))
        self.end_headers()

    def send_error(self, code, message=None, explain=None):
        """What is no request at all is told as text too."""
        self.request_version = "HTTP/1.0"  # whatever it says
        self.reply(code, "text/plain", f"{http.HTTPStatus(code).phrase}\n")

    def version_string(self):
        return "board"

    def log_message(self, *_):
        """The terminal has what the program says, and nothing of requests."""


# ---- Calls, with what the page sends

def call_read(server, sent):
    """What was pasted, or why it is nothing that can be read."""
    content = asked.text_in(sent, "text").encode("utf-8", "surrogatepass")
    try:
        return {"found": pasted.told(pasted.read(content, asked.size_in(sent)))}
    except pasted.NoReading as wrong:
        return {"wrong": str(wrong)}


def call_texts(server, sent):
    found = asked.template_in(sent) if "owner" in sent else asked.position_in(sent)
    return pasted.texts(found, asked.marks_in(sent, found.board.size))


def call_ask(server, sent):
    question = asked.word_in(sent, "question", tuple(ASKED))
    return {"id": server.desk.ask(question, getattr(questions, question), *ASKED[question](server, sent))}


def call_stop(server, sent):
    server.desk.stop("it was stopped")
    return {}


def of_position(server, sent):
    return asked.position_in(sent), {**server.start["options"], **asked.options_in(sent)}


def of_game(server, sent):
    number = sent.get("tree")
    tree = server.desk.trees.get(number) if type(number) is int else None
    if not tree:
        raise Refused(410, "The tree of this game is no longer kept.")
    return tree, asked.moves_in(sent, tree.position.board.size)


ASKED = {"who": of_position, "moves": of_position, "plain": of_position, "play": of_game,
         "pattern": lambda server, sent: (asked.template_in(sent),)}
CALLS = {"read": call_read, "texts": call_texts, "ask": call_ask, "stop": call_stop}


# ---- What is read

def read_start(server):
    """What the page begins with."""
    return TYPES[".json"], json.dumps({**server.start, "limits": asked.OPTIONS, "wide": WIDE, "edge": EDGE})


def read_state(server):
    """What is known of the question."""
    return TYPES[".json"], json.dumps(server.desk.shown())


def read_reader(server):
    """The scripts by which a page of a tree reads it, as one function of a tree's text."""
    front, back = (HERE / "reader.js").read_text().split("// HERE\n")
    return TYPES[".js"], front + "".join((PAGES / name).read_text() for name in READER) + back


def board_at(server, rest):
    """The empty board of ROWS/COLUMNS, as the pages of trees draw it. The page says how it looks, without styles."""
    words = rest.split("/")
    require(len(words) == 2 and all(word.isascii() and word.isdigit() and len(word) < 3 for word in words),
            "rows and columns")
    size = asked.size_in(dict(zip(("rows", "columns"), map(int, words))))
    return TYPES[".svg"], re.sub("<style>.*?</style>\n", "", picture(size, {"chain": ""}), flags=re.S)


def tree_at(server, rest):
    tree = server.desk.trees.get(int(rest)) if rest.isascii() and rest.isdigit() and len(rest) < 10 else None
    if not tree:
        raise Refused(410, "This tree is no longer kept.")
    return "text/plain", tree.content()


READS = {"start": read_start, "reader.js": read_reader, "state": read_state}
PLACES = {"board": board_at, "tree": tree_at}
