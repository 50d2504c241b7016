"""Runs of the built program in which calls of the C library fail, one after the other.

They are made to fail by a library of a few lines of C, which the loader puts before the C library. It is compiled here,
by gcc or what CC names. It is told by the environment what is to fail, and keeps the numbers of calls in a file."""
import os
import pathlib
import shlex
import subprocess
import sys
import tempfile
import time

from .program import LONGEST, PROGRAM, told

NUMBER = 8  # bytes of a number of calls


def compiled(folder, source, flags):
    text, library = pathlib.Path(folder, "fails.c"), pathlib.Path(folder, "fails.so")
    text.write_text(source)
    compiler = shlex.split(os.environ.get("CC", "gcc"))
    subprocess.run([*compiler, "-O1", *flags, "-shared", "-fPIC", "-o", library, text], check=True)
    return library


def came_of(library, words, text, **failing):
    """The status, the output, and two numbers of calls."""
    with tempfile.TemporaryFile() as calls:
        places = {"LD_PRELOAD": str(library), "CALLS_FILE": str(calls.fileno()), **failing}
        ended = subprocess.run([PROGRAM, *words], input=text, capture_output=True, timeout=LONGEST, env=places,
                               pass_fds=[calls.fileno()])
        calls.seek(0)
        counts = [int.from_bytes(calls.read(NUMBER), sys.byteorder) for _ in range(2)]
    return ended.returncode, ended.stdout + ended.stderr, *counts


def named(run):
    return f"hx {' '.join(run.words)}"


def wrong_runs(name, runs, tried, source, *flags):
    """How many answers are wrong. Of a run `tried` tells, by the library of this source, what failed and is wrong."""
    with tempfile.TemporaryDirectory() as folder:
        library = compiled(folder, source, flags)
        return sum(told(f"{name}: {named(run)}: {what}", faults)
                   for run in runs for what, faults in [tried(library, run)])


def ended(name, *parts):
    """How a script ends whose parts tell how many answers were wrong."""
    start = time.perf_counter()
    wrong = sum(part() for part in parts)
    print(f"{name}: {time.perf_counter() - start:.0f} s, {wrong} wrong")
    return 1 if wrong else 0
