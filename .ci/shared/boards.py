"""tools/board as the trials run it: calls to it, and what it is asked."""
import contextlib
import http.client
import json
import os
import signal
import subprocess
import time

from . import EXAMPLES, TOP
from .trials import TooLate

PATIENCE = 120  # seconds for what is waited for
STEP = 0.05
LONG = {"budget": 1_099_511_627_776}  # a question that goes on until it is ended


class Running:
    """tools/board, and calls to it."""

    def __init__(self, *words, top=TOP, **more):
        self.program = subprocess.Popen([top / "tools" / "board", *words], stdout=subprocess.PIPE,
                                        stderr=subprocess.PIPE, text=True, **more)
        self.address = self.program.stdout.readline().strip()
        _, _, self.host, self.token, _ = self.address.split("/") if self.address else [""] * 5

    def call(self, method, path, body=None, headers=(), token=None):
        """The status, the headers and the content of an answer."""
        connection = http.client.HTTPConnection(self.host, timeout=PATIENCE)
        content = body if body is None or isinstance(body, bytes) else json.dumps(body).encode()
        typed = {} if content is None else {"Content-Type": "application/json"}
        connection.request(method, f"/{self.token if token is None else token}/{path}", content,
                           {**typed, **dict(headers)})
        answer = connection.getresponse()
        with contextlib.closing(connection):
            return answer.status, answer.headers, answer.read()

    def post(self, path, body):
        return json.loads(self.call("POST", path, body)[2])

    def state(self):
        return json.loads(self.call("GET", "state")[2])

    def ask(self, question, **asked):
        """What is told of a question in the end."""
        self.post("ask", {"question": question, **asked})
        return wait_for(lambda: (lambda told: told if told["phase"] != "asking" else None)(self.state()))

    def children(self):
        """The programs that it has started and that have not ended."""
        lines = subprocess.run(["ps", "-A", "-o", "pid=,ppid=,stat="], stdout=subprocess.PIPE,
                               text=True).stdout.splitlines()
        return [int(pid) for pid, parent, state in map(str.split, lines) if int(parent) == self.program.pid
                and not state.startswith("Z")]

    def end(self, number=signal.SIGTERM):
        """The status of its end, and its errors."""
        self.program.send_signal(number)
        _, errors = self.program.communicate(timeout=PATIENCE)
        return self.program.returncode, errors


@contextlib.contextmanager
def running(*words, **more):
    board = Running("--no-browser", *words, **more)
    try:
        yield board
    finally:
        if board.program.poll() is None:
            board.program.kill()
        board.program.communicate()


def wait_for(found):
    """What is found, once it is something."""
    until = time.monotonic() + PATIENCE
    while time.monotonic() < until:
        value = found()
        if value:
            return value
        time.sleep(STEP)
    raise TooLate("it does not come")


def is_there(pid):
    with contextlib.suppress(ProcessLookupError):
        os.kill(pid, 0)
        return True
    return False


def empty(rows, columns=None, mover="black"):
    return {"rows": rows, "columns": columns or rows, "black": [], "white": [], "mover": mover}


def example(name):
    return (EXAMPLES / name).read_text()


RACE = {"rows": 4, "columns": 4, "black": ["a1", "a2", "a3", "d4"], "white": ["b2", "c2", "d2", "a4"], "mover": "black"}
BRIDGE = {"rows": 4, "columns": 5, "black": ["c2"], "white": [], "owner": "black", "kind": "full",
          "ends": ["c2", "last"], "carrier": ["d2", "b3", "c3", "d3", "a4", "b4", "c4", "d4"]}
