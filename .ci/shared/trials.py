"""What was tried, and how often it came otherwise."""
import os
import subprocess

from . import TOP
from .program import LONGEST


class TooLate(Exception):
    """What was waited for did not come."""


class Trials:
    def __init__(self):
        self.count = self.wrong = 0

    def want(self, what, wanted, came):
        self.count += 1
        if wanted != came:
            self.wrong += 1
            print(f"{what}: wanted {str(wanted)[:300]!r}, came {str(came)[:300]!r}", flush=True)

    def ended(self, name, where=""):
        """Tells what came of the trials, and how the script ends."""
        print(f"{name}: {self.count} trials, {self.wrong} wrong{where}")
        return 1 if self.wrong else 0


def run(words, source="", path=os.environ["PATH"], top=TOP):
    """The status, the output and the errors of a script."""
    ended = subprocess.run(words, cwd=top, input=source.encode(), capture_output=True, timeout=5 * LONGEST,
                           env={"PATH": path, "LC_ALL": "C"})
    return ended.returncode, ended.stdout.decode(), ended.stderr.decode()
