"""Runs of `hx solve`, many at once: on this machine, or by GNU parallel on others. Here a loop takes less code than
driving parallel would, and wants nothing to be installed; the log has the same columns.

The folder of the runs has a method `take`, which keeps a tree that was written to a file, and `answers`, what was
written in the place of trees. Its `log` gets a line for each run that ended. A signal that asks for the end stops all
runs and raises Stopped."""
import contextlib
import os
import shutil
import signal
import subprocess
import sys
import time

from .program import TOP, started

# The columns of GNU parallel's joblog.
COLUMNS = ["Seq", "Host", "Starttime", "JobRuntime", "Send", "Receive", "Exitval", "Signal", "Command"]
OPEN = 3  # the status of `hx solve` where it leaves open who wins
A_MOMENT = 0.02  # seconds between two looks at the runs


class NoParallel(Exception):
    """GNU parallel is not found."""


class Stopped(Exception):
    """A signal asked for the end."""


# ---- Signals

def stop(*_):
    """Raises, and once: what is done at the end is not stopped."""
    set_ends(signal.SIG_IGN)
    raise Stopped


def heed_stops():
    set_ends(stop)


def set_ends(handler):
    for end in (signal.SIGINT, signal.SIGTERM):
        signal.signal(end, handler)


@contextlib.contextmanager
def stops_held():
    """Signals that ask for the end wait until this is done, so that no program is started that nobody knows."""
    asked = []
    set_ends(lambda *_: asked.append(True))
    try:
        yield
    finally:
        heed_stops()
    if asked:
        stop()


# ---- Jobs

class Progress:
    """How many jobs ended, on standard error where that is wanted."""

    def __init__(self, is_shown, jobs):
        self.is_shown, self.count, self.ended, self.started = is_shown, len(jobs), 0, time.time()
        self.show("\r")

    def step(self):
        self.ended += 1
        self.show("\r")

    def show(self, last):
        if self.is_shown:
            print(f"{self.ended} of {self.count} jobs, {time.time() - self.started:.0f} s", end=last, file=sys.stderr,
                  flush=True)


class Job:
    """A run of the program on this machine."""

    def __init__(self, folder, number, cell, line, options):
        self.folder, self.number, self.line = folder, number, line
        self.path, self.started = folder.file(cell, "found"), time.time()
        if self.path.exists():
            self.path.unlink()  # a run that was killed may still write to it
        with open(self.path, "xb") as sink, open(folder.file(cell, "hexpos"), "rb") as source:
            self.program = started("solve", *options, stdin=source, stdout=sink)

    def has_ended(self):
        return self.program.poll() is not None

    def take(self):
        """Keeps the tree, and only then writes the line of the log."""
        status, size = self.program.returncode, self.path.stat().st_size
        ran = time.time() - self.started
        if status == 0:
            self.folder.take(self.path)
        else:
            self.folder.answers.add(self.path.read_text().strip() if status == OPEN else f"status {status}")
            self.path.unlink()
        row = [self.number, ":", f"{self.started:.3f}", f"{ran:10.3f}", 0, size, max(status, 0), max(-status, 0),
               self.line]
        with open(self.folder.log, "a") as log:
            log.write("\t".join(map(str, row)) + "\n")

    def stop(self):
        self.program.kill()
        self.program.wait()
        self.path.unlink()


def run_here(folder, jobs, options, count, progress):
    """Runs the jobs on this machine, so many at once."""
    waiting = [(number, cell, line) for number, (cell, line) in enumerate(jobs.items(), 1)]
    running = []
    try:
        while waiting or running:
            ended = [job for job in running if job.has_ended()]
            if waiting and len(running) < count:
                with stops_held():
                    running.append(Job(folder, *waiting.pop(0), options))
            elif ended:
                with stops_held():
                    running.remove(ended[0])
                    ended[0].take()
                progress.step()
            else:
                time.sleep(A_MOMENT)
    finally:
        stop_all(running)


def stop_all(running):
    for job in running:
        job.stop()


def run_by_parallel(folder, jobs, logins, count, progress):
    """Has GNU parallel run the jobs, whose outputs come one after the other, each whole."""
    lines = folder.path / "jobs"
    lines.write_text("".join(line + "\n" for line in jobs.values()))
    words = ["parallel", "--sshlogin", logins, "--joblog", f"+{folder.log}", "--arg-file", lines]
    words += ["--jobs", str(count)] if count else []
    known = []
    try:
        with stops_held():
            known.append(started_parallel(words))
        take_outputs(folder, known[0].stdout, progress)
        known[0].wait()
    finally:
        end_parallel(known)


def end_parallel(known):
    """Asks GNU parallel to end, until it does: before its first job it ignores that, and old versions want it twice."""
    for parallel in known:
        while parallel.poll() is None:
            parallel.terminate()
            with contextlib.suppress(subprocess.TimeoutExpired):
                parallel.wait(1)


def want_parallel():
    if not shutil.which("parallel"):
        raise NoParallel("--sshlogin wants GNU parallel, which is not found: install it, on Debian the package "
                         "parallel")


def started_parallel(words):
    """GNU parallel, for whose jobs on this machine the program of this repository is the first."""
    found = {**os.environ, "PATH": f"{TOP}{os.pathsep}{os.environ['PATH']}"}
    return subprocess.Popen(words, stdin=subprocess.DEVNULL, stdout=subprocess.PIPE, env=found)


def take_outputs(folder, source, progress):
    """Takes each tree out of the lines, and what says that units or room were wanting. One that was cut off is
    dropped."""
    tree, path = [], folder.path / "found"
    for line in source:
        if line.startswith(b"unknown "):
            folder.answers.add(line.decode(errors="replace").strip())
            progress.step()
        elif line.startswith(b"hextree "):
            tree = [line]
        elif tree:
            tree.append(line)
        if tree and line.startswith(b"end "):
            with stops_held():
                path.write_bytes(b"".join(tree))
                folder.take(path)
            progress.step()
            tree = []
