"""The program, as the scripts start it that ask it something."""
import os
import pathlib
import subprocess

TOP = pathlib.Path(__file__).resolve().parents[2]
PROGRAM = TOP / "crates" / "hx_main" / "out" / "hx_main"


def program():
    """The program, or what builds it."""
    return PROGRAM if os.access(PROGRAM, os.X_OK) else TOP / "hx"


def started(*words, **streams):
    """The program with these words. Its input and output are pipes where no others are given."""
    return subprocess.Popen([program(), *words], bufsize=0,
                            **{"stdin": subprocess.PIPE, "stdout": subprocess.PIPE, **streams})
