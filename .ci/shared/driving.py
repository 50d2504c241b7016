"""A browser that is driven: it is told what to open, which keys to press and where to click, over two pipes (the
protocol of Chromium's tools for developers), and says what its page holds. Firefox has no such pipes."""
import base64
import contextlib
import json
import os
import pathlib
import select
import shutil
import signal
import subprocess
import tempfile
import time

from .boards import PATIENCE, STEP
from .trials import TooLate

BROWSERS = ("chromium", "chromium-browser", "google-chrome")
# By the names of keys: the code by which the browser knows each, and the text that it types.
KEYS = {"Tab": (9, ""), "Enter": (13, "\r"), " ": (32, " "), "ArrowLeft": (37, ""), "ArrowUp": (38, ""),
        "ArrowRight": (39, ""), "ArrowDown": (40, ""), "z": (90, ""), "y": (89, "")}
SHIFT, CONTROL = 8, 2
# In each page: what goes wrong in it, as texts, and short words for what is asked of it often.
COLLECTED = """window.wrongs = [];
window.one = (selector) => document.querySelector(selector);
window.textOf = (selector) => one(selector).innerText.trim();
window.namesOf = (selector) => [...document.querySelectorAll(selector)].map((cell) => cell.dataset.cell);
addEventListener("error", (event) => wrongs.push(`${event.message} ${event.filename}:${event.lineno}`));
addEventListener("unhandledrejection", (event) => wrongs.push(String(event.reason?.stack || event.reason)));
addEventListener("securitypolicyviolation", (event) => wrongs.push(`${event.violatedDirective} ${event.blockedURI}`));
"""


class NoBrowser(Exception):
    """The browser does not start, or does not answer."""


def found_browser(words):
    """The first browser that is there, of these or of all that can be driven."""
    return next(filter(shutil.which, words or BROWSERS), None)


class Browser:
    """A browser without a window, with one page and a folder of its own: a group of processes, ended as one."""

    def __init__(self, program):
        self.folder, self.count, self.session, self.buffer = tempfile.mkdtemp(), 0, None, b""
        reads, to_browser = os.pipe()
        from_browser, writes = os.pipe()
        words = ["--headless", "--no-sandbox", "--disable-gpu", "--remote-debugging-pipe",
                 f"--user-data-dir={self.folder}", "about:blank"]
        self.program = subprocess.Popen(
            ["sh", "-c", f'exec "$0" "$@" 3<&{reads} 4>&{writes}', program, *words], pass_fds=(reads, writes),
            start_new_session=True,
            stdin=subprocess.DEVNULL, stdout=subprocess.DEVNULL, stderr=subprocess.DEVNULL)
        os.close(reads)
        os.close(writes)
        self.to_browser, self.from_browser = to_browser, from_browser

    def begin(self):
        """Opens a page, and goes on with it alone. What is downloaded comes to its folder."""
        self.call("Browser.setDownloadBehavior", behavior="allow", downloadPath=self.folder)
        page = self.call("Target.createTarget", url="about:blank")["targetId"]
        self.session = self.call("Target.attachToTarget", targetId=page, flatten=True)["sessionId"]
        self.call("Page.enable")
        self.call("Page.addScriptToEvaluateOnNewDocument", source=COLLECTED)

    def close(self):
        with contextlib.suppress(ProcessLookupError):
            os.killpg(self.program.pid, signal.SIGKILL)
        self.program.wait()
        os.close(self.to_browser)
        os.close(self.from_browser)
        shutil.rmtree(self.folder, ignore_errors=True)  # it may still be written to

    # ---- Messages

    def call(self, method, **params):
        """What the browser answers."""
        self.count += 1
        message = {"id": self.count, "method": method, "params": params,
                   **({"sessionId": self.session} if self.session else {})}
        try:
            os.write(self.to_browser, json.dumps(message).encode() + b"\0")
        except OSError:
            raise NoBrowser("it is gone") from None
        until = time.monotonic() + PATIENCE
        while True:
            came = json.loads(self.next_message(until))
            if came.get("id") == self.count:
                if "error" in came:
                    raise NoBrowser(f"{method}: {came['error'].get('message')}")
                return came["result"]

    def next_message(self, until):
        while b"\0" not in self.buffer:
            if not select.select([self.from_browser], [], [], max(until - time.monotonic(), 0))[0]:
                raise NoBrowser("it does not answer")
            piece = os.read(self.from_browser, 1 << 20)
            if not piece:
                raise NoBrowser("it ended")
            self.buffer += piece
        message, _, self.buffer = self.buffer.partition(b"\0")
        return message

    # ---- The page

    def show(self, wide, high, scheme="light"):
        """The size of the page, and whether it is to be light or dark."""
        self.call("Emulation.setDeviceMetricsOverride", width=wide, height=high, deviceScaleFactor=1, mobile=False)
        self.call("Emulation.setEmulatedMedia", features=[{"name": "prefers-color-scheme", "value": scheme}])

    def open(self, address):
        self.call("Page.navigate", url="about:blank")
        self.call("Page.navigate", url=address)

    def value(self, expression):
        """What an expression comes to in the page."""
        came = self.call("Runtime.evaluate", expression=expression, returnByValue=True, awaitPromise=True)
        if "exceptionDetails" in came:
            raise TooLate(f"{expression}: {came['exceptionDetails']['exception'].get('description', 'an exception')}")
        return came["result"].get("value")

    def wait(self, expression, what=None):
        """Waits until an expression is so. One that throws is not so yet."""
        until = time.monotonic() + PATIENCE
        while True:
            if self.value(f"(() => {{ try {{ return Boolean({expression}); }} catch {{ return false; }} }})()"):
                return
            if time.monotonic() > until:
                raise TooLate(f"{what or expression} does not come")
            time.sleep(STEP)

    def click(self, selector):
        """A click in the middle of an element, at which the page looks first."""
        x, y = self.value(f"""(() => {{
            const element = document.querySelector({json.dumps(selector)});
            element.scrollIntoView({{ block: "center" }});
            const box = element.getBoundingClientRect();
            return [box.x + box.width / 2, box.y + box.height / 2];
        }})()""")
        for kind in ("mousePressed", "mouseReleased"):
            self.call("Input.dispatchMouseEvent", type=kind, x=x, y=y, button="left", clickCount=1)

    def press(self, key, modifiers=0):
        code, text = KEYS[key]
        named = {"key": key, "code": {" ": "Space"}.get(key, key), "windowsVirtualKeyCode": code,
                 "modifiers": modifiers}
        self.call("Input.dispatchKeyEvent", type="keyDown", **named, **({"text": text} if text else {}))
        self.call("Input.dispatchKeyEvent", type="keyUp", **named)

    def write(self, text):
        """Types a text into what has the focus."""
        self.call("Input.insertText", text=text)

    def picture(self, path):
        pathlib.Path(path).write_bytes(base64.b64decode(self.call("Page.captureScreenshot")["data"]))
