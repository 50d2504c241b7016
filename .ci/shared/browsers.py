"""What runs pages: a browser without a window, or node with a stand-in of a document, which is document.js.

A page calls `report` with what came. In node that is given; in a browser it stands in the page, hands what came to a
server here, and goes on to the next page."""
import http.server
import json
import os
import pathlib
import queue
import re
import shutil
import signal
import subprocess
import tempfile
import threading

DOCUMENT = pathlib.Path(__file__).resolve().with_name("document.js")
BROWSERS, NODES = ("chromium", "chromium-browser", "google-chrome", "firefox"), ("node", "nodejs")
OLDEST_NODE = 18
PATIENCE = 60  # seconds for a page of a browser
REPORT = """const report = async (came) => {
  await fetch("/PLACE", { method: "POST", body: JSON.stringify(came) });
  if (NEXT < COUNT) location = "/NEXT";
};
"""


def is_node(program):
    return pathlib.Path(program).name.startswith("node")


def may_run(program):
    """Whether it is there, and node of a version that runs the stand-in of a document."""
    if not shutil.which(program) or not is_node(program):
        return shutil.which(program)
    version = subprocess.run([program, "--version"], stdout=subprocess.PIPE, text=True).stdout
    return int(version.lstrip("v").partition(".")[0] or 0) >= OLDEST_NODE


def report_in(program, place, count):
    """How one of so many pages reports."""
    words = {"PLACE": place, "NEXT": place + 1, "COUNT": count}
    return "" if is_node(program) else re.sub("[A-Z]{4,}", lambda word: str(words.get(word[0], word[0])), REPORT)


def run_all(program, pages):
    """What each page reported, or none."""
    came = (by_node if is_node(program) else by_browser)(program, pages)
    return [came.get(place) for place in range(len(pages))]


def by_node(program, pages):
    with tempfile.TemporaryDirectory() as folder:
        paths = [pathlib.Path(folder) / f"{number}.html" for number in range(len(pages))]
        for path, text in zip(paths, pages):
            path.write_text(text)
        ended = subprocess.run([program, DOCUMENT, *paths], stdout=subprocess.PIPE, text=True)
    return dict(enumerate(map(json.loads, ended.stdout.splitlines())))


class Server(http.server.ThreadingHTTPServer):
    """Hands out the pages by their numbers, and takes what they report."""
    daemon_threads = True

    def __init__(self, pages):
        super().__init__(("127.0.0.1", 0), Answers)
        self.pages, self.reports = pages, queue.Queue()
        threading.Thread(target=self.serve_forever, daemon=True).start()

    def handle_error(self, request, client_address):
        """A browser may leave a page while it comes."""


class Answers(http.server.BaseHTTPRequestHandler):
    def do_GET(self):
        place = self.path[1:]
        is_page = place.isdecimal() and int(place) < len(self.server.pages)
        self.answer(200 if is_page else 404, self.server.pages[int(place)].encode() if is_page else b"")

    def do_POST(self):
        report = json.loads(self.rfile.read(int(self.headers["Content-Length"])))
        self.server.reports.put((int(self.path[1:]), report))
        self.answer(200, b"")

    def answer(self, status, content):
        self.send_response(status)
        self.send_header("Content-Type", "text/html; charset=utf-8")
        self.send_header("Content-Length", str(len(content)))
        self.end_headers()
        self.wfile.write(content)

    def log_message(self, *_):
        """Standard error has only what differs."""


def started_browser(program, address, folder):
    """A browser without a window, with a folder of its own: a group of processes, which can be ended whole."""
    words = (["--headless", "--no-remote", "--profile", folder] if "firefox" in pathlib.Path(program).name
             else ["--headless", "--no-sandbox", "--disable-gpu", f"--user-data-dir={folder}"])
    return subprocess.Popen([program, *words, address], stdin=subprocess.DEVNULL, stdout=subprocess.DEVNULL,
                            stderr=subprocess.DEVNULL, start_new_session=True)


def by_browser(program, pages):
    server, came, folder = Server(pages), {}, tempfile.mkdtemp()
    browser = started_browser(program, f"http://127.0.0.1:{server.server_port}/0", folder)
    try:
        while len(came) < len(pages):
            place, report = server.reports.get(timeout=PATIENCE)
            came[place] = report  # which a browser may send twice
    except queue.Empty:
        pass
    finally:
        os.killpg(browser.pid, signal.SIGKILL)
        browser.wait()
        server.shutdown()
        shutil.rmtree(folder, ignore_errors=True)  # it may still be written to
    return came
