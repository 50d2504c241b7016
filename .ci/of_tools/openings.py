"""A job for each opening by tools/openings, with runs that are stopped and go on, and tools/join-trees."""
import os
import pathlib
import re
import signal
import subprocess
import sys
import tempfile
import time

from shared import EXAMPLES, TOP
from shared.program import LONGEST, PROGRAM, copy_of_tools, executable
from shared.trials import run

from .positions import EMPTY

# What is written of a board, or of the moves of an example, and the rule of the joined tree's last node.
SURVEYS = [
    ("3 3", "", "survey 3 3\nwwb\nbbb\nbww\nblack 5 white 4\nBlack wins, by 5 of 9 moves.\n", "move"),
    ("3 2", "", "survey 3 2\nww\nww\nww\nblack 0 white 6\nWhite wins, whatever Black plays.\n", "all"),
    ("1 1", "", "survey 1 1\nb\nblack 1 white 0\nBlack wins, by 1 of 1 moves.\n", "move"),
    ("--after", "won-race", "survey 4 4\n.www\n....\n.bww\n.ww.\nblack 1 white 7\nBlack wins, by 1 of 8 moves.\n",
     "move"),
    ("--after", "won-race-of-white",
     "survey 4 4\n.bbb\n....\n.www\n.ww.\nblack 3 white 5\nWhite wins, by 5 of 8 moves.\n", "move"),
    ("--after", "bridge-to-the-edge",
     "survey 4 4\nb.bb\nb...\n...b\nbbbb\nblack 9 white 0\nBlack wins, whatever White plays.\n", "all"),
    ("--after", "two-by-two-white-to-move", "survey 2 2\nbw\nwb\nblack 2 white 2\nWhite wins, by 2 of 4 moves.\n",
     "move"),
]
LEFT_OPEN = ("survey 2 5\n?????\n?????\nblack 0 white 0 open 10\nWho wins was left open. "
             "Left open: a1 b1 c1 d1 e1 a2 b2 c2 d2 e2, by {}.\n")
SOLVED = "survey 2 5\nbbbbb\nbbbbb\nblack 10 white 0\nBlack wins, by 10 of 10 moves.\n"
USAGE_OF_OPENINGS = ("usage: tools/openings (R C | --after < POSITION) [--folder FOLDER] [--resume] [--jobs N] "
                     "[--sshlogin LIST] [--bar] "
                     "[--plain-tree] [--workers N] [--budget N] [--proofs N]\n"
                     "R and C, the rows and columns, are 1 to 11.\n")
WORDS_OF_OPENINGS = ["", "3", "3 3 3", "0 3", "3 12", "3 x", "03 3", "--after 3 3", "3 3 --jobs 0", "3 3 --jobs",
                     "3 3 --jobs two", "3 3 --help", "3 3 --budget", "3 3 --budget x", "3 3 --workers 65",
                     "3 3 --seed 1", "3 3 --plain-tree --workers 2"]

# Stands in for GNU parallel: runs the jobs one after the other on this machine, with the log that is wanted.
STAND_IN = """#!{python}
import subprocess, sys
words = dict(zip(sys.argv[1::2], sys.argv[2::2]))
assert sorted(words) == ["--arg-file", "--joblog", "--jobs", "--sshlogin"] and words["--joblog"][0] == "+", sys.argv
for number, line in enumerate(open(words["--arg-file"]), 1):
    ended = subprocess.run(["sh", "-c", line], stdout=subprocess.PIPE)
    with open(words["--joblog"][1:], "a") as log:
        print(number, ":", 0, 0, 0, len(ended.stdout), ended.returncode, 0, line, sep="\\t", end="", file=log)
    sys.stdout.buffer.write(ended.stdout)
    sys.stdout.flush()
"""

# A program that sleeps in the place of the job for c1, until there is a file that tells it to go on.
SLEEPER = """#!/bin/sh
[ "$1" = solve ] || exec {program} "$@"
text=$(cat)
case $text in *"black {c1}"*) [ -e {go} ] || exec sleep 1;; esac
printf '%s\\n' "$text" | {program} "$@"
"""
C1 = f"{4:032x}"


class Folder:
    """A folder for the runs of openings, in which GNU parallel stands in."""

    def __init__(self, folder, top=TOP):
        self.top, self.jobs, self.tool = top, pathlib.Path(folder, "jobs-of"), str(top / "tools" / "openings")
        executable(pathlib.Path(folder, "bin", "parallel"), STAND_IN.format(python=sys.executable))
        self.path = os.pathsep.join([str(pathlib.Path(folder, "bin")), os.environ["PATH"]])

    def words(self, words):
        return [self.tool, *words.split(), "--folder", str(self.jobs)]

    def openings(self, words, source=""):
        return run(self.words(words), source, self.path)

    def logged(self):
        """The lines of the jobs that the log has."""
        log = self.jobs / "log"
        return sorted(line.split("\t")[-1] for line in log.read_text().splitlines()[1:]) if log.exists() else []

    def joined(self):
        return run(["tools/join-trees", str(self.jobs / "position.hexpos"),
                    *sorted(map(str, self.jobs.glob("*.hextree")))])


def try_openings(trials):
    """The table, and what `hx check` says of the joined tree, by jobs here and by GNU parallel's stand-in."""
    for words, example, output, rule in SURVEYS:
        source = (EXAMPLES / f"{example}.hexpos").read_text() if example else ""
        logged = []
        for more in ("--jobs 2", "--jobs 2 --sshlogin :"):
            with tempfile.TemporaryDirectory() as name:
                folder, what = Folder(name), f"openings {words} {more} {example}"
                trials.want(what, (0, output, ""), folder.openings(f"{words} {more}", source))
                try_joined(trials, what, folder, output, rule)
                logged.append(folder.logged())
        trials.want(f"the jobs of openings {words} {example}", *logged)


def try_joined(trials, what, folder, output, rule):
    status, joined, errors = folder.joined()
    trials.want(f"joining the trees of {what}", (0, ""), (status, errors))
    trials.want(f"the last node joined of {what}", [rule], re.findall(r"^node(?: \S+){4} (\w+)", joined, re.M)[-1:])
    winner = output.splitlines()[-1].partition(" ")[0].lower()
    position = (folder.jobs / "position.hexpos").read_text()
    trials.want(f"the tree joined of {what}", (0, f"yes {winner}\n{position}", ""), run(["./hx", "check"], joined))


def try_stops(trials):
    """A run that is killed at its third job goes on by --resume, and runs no other job twice."""
    for words, end in [("", signal.SIGTERM), ("", signal.SIGINT), ("", signal.SIGKILL),
                       ("--sshlogin :", signal.SIGTERM)]:
        with tempfile.TemporaryDirectory() as name:
            top = pathlib.Path(name)
            program = SLEEPER.format(program=PROGRAM, c1=C1, go=top / "go")
            for path in (top / "hx", copy_of_tools(top)):
                executable(path, program)
            try_stop(trials, Folder(name, top), f"3 3 --jobs 1 {words}", end)


def try_stop(trials, folder, words, end):
    what = f"openings {words} and {end.name}"
    with subprocess.Popen(folder.words(words), stdout=subprocess.PIPE, stderr=subprocess.PIPE,
                          env={"PATH": folder.path}) as stopped:
        for _ in range(LONGEST * 50):
            if (folder.jobs / "b1.hextree").exists() and len(folder.logged()) == 2:
                break
            time.sleep(0.02)
        stopped.send_signal(end)
        output, errors = stopped.communicate()
    wanted = (-9, b"", b"") if end == signal.SIGKILL else (1, b"", b"openings: stopped; --resume goes on\n")
    trials.want(what, wanted, (stopped.returncode, output, errors))
    (folder.top / "go").touch()
    trials.want(f"{what}, resumed", (0, SURVEYS[0][2], ""), folder.openings(f"{words} --resume"))
    trials.want(f"the jobs of {what}", (5, 5), (len(folder.logged()), len(set(folder.logged()))))
    trials.want(f"what is left of {what}", [], list(folder.jobs.glob("*found")))


def try_open_moves(trials):
    """What is left open is told, tried again with other options alone, and solved by them."""
    with tempfile.TemporaryDirectory() as name:
        folder = Folder(name)
        for words, told in [("--budget 0", "unknown budget 0"),
                            ("--budget=0 --resume", "an earlier run with the same options"),
                            ("--budget 0 --proofs 5 --resume --sshlogin : --jobs 1", "unknown budget 0")]:
            trials.want(f"openings 2 5 {words}", (3, LEFT_OPEN.format(told), ""), folder.openings(f"2 5 {words}"))
        (folder.jobs / "a1.hextree").write_text("hextree 1\n")  # not a tree, and so solved as the others
        solved = (0, SOLVED, "0 of 5 jobs, 0 s\r")
        status, output, errors = folder.openings("2 5 --resume --bar")
        trials.want("openings 2 5 --resume --bar", solved, (status, output, errors[:len(solved[2])]))
        trials.want("the end of the bar", "5 of 5 jobs", errors.rpartition("\r")[2].partition(",")[0])
        try_wrong_folders(trials, folder)


def try_wrong_folders(trials, folder):
    position = folder.jobs / "position.hexpos"
    for words, told in [("2 5", f"{folder.jobs} is there already: --resume goes on in it, and --folder names another"),
                        ("5 2 --resume", f"{position} is there already, and of another position")]:
        trials.want(f"openings {words}", (1, "", f"openings: {told}\n"), folder.openings(words))


def try_wrong_openings(trials):
    for words in WORDS_OF_OPENINGS:
        trials.want(f"openings {words}", (2, "", USAGE_OF_OPENINGS), run(["tools/openings", *words.split()]))
    for source, told in [("", "line 1: expected a row of the board, came none"),
                         ("hexpos 2\n", "line 1: wanted hexpos 1, or hextemplate 1"),
                         ("b\nwhite to move\n", "the position has no empty cell")]:
        trials.want(f"openings --after {source!r}", (1, "", f"openings: {told}\n"),
                    run(["tools/openings", "--after"], source))
    with tempfile.TemporaryDirectory() as name:
        told = ("openings: --sshlogin wants GNU parallel, which is not found: "
                "install it, on Debian the package parallel\n")
        words = [sys.executable, "tools/openings", "2", "2", "--sshlogin", ":", "--folder", f"{name}/jobs-of"]
        trials.want("openings without GNU parallel", (1, "", told), run(words, path=name))
        trials.want("what is left of openings without GNU parallel", [], list(pathlib.Path(name).iterdir()))


# Positions and trees that cannot be joined, and what join-trees says of them.
ONE_NODE = f"hextree 1\nsize 1 3\nnode {EMPTY} {EMPTY[1:]}2 black black chain\nend {{}} black\n"
NO_JOINS = [
    ("", ONE_NODE, "line 1: expected a row of the board, came none"),
    ("hexpos 1\n", ONE_NODE, "line 2: wanted size ROWS COLUMNS, from 1 to 11"),
    (". . .\nwhite to move", "", "{} is not the text of a tree"),
    (". . .\nwhite to move", ONE_NODE.format(1)[:-1], "{} is not the text of a tree"),
    (". . .\nwhite to move", "hextree 1\nsize 1 3\nend 0 black\n", "{} is not the text of a tree"),
    (". . .\nwhite to move", ONE_NODE.format(1).replace("hextree 1", "hextree 3"), "{} is not the text of a tree"),
    (". . .\nblack to move", ONE_NODE.format(1), "{} is of no position after a move"),
    (". . .\n. . .\nwhite to move", ONE_NODE.format(1), "{} is of no position after a move"),
    (". b .\nwhite to move", ONE_NODE.format(1), "{} is of no position after a move"),
    (". . .\nwhite to move", ONE_NODE.format(1), "by no tree White wins, and none is given for a1 c1"),
    ("b . w\nwhite to move", ONE_NODE.format(1_048_576).replace(f"{EMPTY} {EMPTY[1:]}2", f"{EMPTY[1:]}1 {EMPTY[1:]}6"),
     "the joined tree has 1048577 nodes, and hx check reads no more than 1048576"),
]


def try_wrong_joins(trials):
    usage = "usage: tools/join-trees POSITION TREE..\n"
    for words in ([], ["x"]):
        trials.want(f"join-trees {words}", (2, "", usage), run(["tools/join-trees", *words]))
    with tempfile.TemporaryDirectory() as name:
        path = pathlib.Path(name, "x")
        for position, tree, told in NO_JOINS:
            path.write_text(tree)
            source = pathlib.Path(name, "y")
            source.write_text(position)
            trials.want(f"join-trees and {told!r}", (1, "", f"join-trees: {told.format(path)}\n"),
                        run(["tools/join-trees", str(source), str(path)]))
        path.write_text(ONE_NODE.format(1))
        for words, missing in [(["examples/none", str(path)], "examples/none"),
                               (["examples/one-by-one.hexpos", "none"], "none")]:
            trials.want(f"join-trees {words}",
                        (1, "", f"join-trees: [Errno 2] No such file or directory: '{missing}'\n"),
                        run(["tools/join-trees", *words]))


TRIED = (try_openings, try_stops, try_open_moves, try_wrong_openings, try_wrong_joins)
