"""What `run` and `run-commands` share: the programs that are named to them, and how they tell where these differ.

A program is a command, such as ./hx or "python3 checkers/check.py". A case has a name, and whoever reads cases has a
function that tells what is wrong with a program's answer to one, or nothing.
"""
import concurrent.futures
import os
import shlex
import shutil
import sys

AT_ONCE = os.cpu_count() or 1


class NoProgram(Exception):
    """A command is none, or its program cannot be started."""


def command_of(name):
    """The words of a command, whose program is there."""
    try:
        words = shlex.split(name)
    except ValueError as wrong:
        raise NoProgram(f"{name!r} is no command: {wrong}") from None
    if not words or not shutil.which(words[0]):
        raise NoProgram(f"{name!r} cannot be started: there is no such program")
    return words


def shown(status, output):
    """The front of an answer, in a line."""
    text = output[:200].decode("latin-1").replace("\n", "\\n")
    return f"{status} {text}"


def differences(name, command, cases, difference):
    """How many cases a program answers otherwise. Prints each, and then a line that counts."""
    with concurrent.futures.ThreadPoolExecutor(AT_ONCE) as pool:
        found = list(pool.map(lambda case: difference(command, case), cases))
    wrong = [(case, what) for case, what in zip(cases, found) if what]
    for case, what in wrong:
        print(f"{name}: {case.name}: {what}")
    print(f"{name}: {len(cases)} cases, {len(wrong)} differ")
    return len(wrong)


def judge(reader, kind, cases, difference):
    """Tries all cases on each program that this process is given. The exit status of the reader."""
    names = sys.argv[1:]
    if not names:
        print(f"usage: {reader} {kind}..", file=sys.stderr)
        return 1
    try:
        commands = {name: command_of(name) for name in names}
    except NoProgram as why:
        print(f"{reader}: {why}", file=sys.stderr)
        return 1
    return 1 if sum([differences(name, command, cases, difference) for name, command in commands.items()]) else 0
