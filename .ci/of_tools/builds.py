"""Builds by tools/build-program and tools/build-unproved that are refused, and so bench/run."""
import pathlib
import re
import shutil
import sys
import tempfile

from shared import TOP
from shared.program import executable
from shared.trials import run


def try_builds(trials):
    """A build without the kit, and one of which the kit says that it failed."""
    words = [sys.executable, "tools/build-program"]
    no_kit = "hx: the program {}, and the kit's command rt is not found: put the kit's folder bin into PATH\n"
    for word in ("--help", "hx_main", ""):
        trials.want(f"build-program {word!r}", (2, "", "usage: tools/build-program\n"), run([*words, word]))
    with tempfile.TemporaryDirectory() as folder:
        trials.want("an old build without the kit", (1, "", no_kit.format("is older than its sources")),
                    run(words, path=folder))
        copy = pathlib.Path(folder, "tools", "build-program")
        copy.parent.mkdir()
        shutil.copy(TOP / "tools" / "build-program", copy)
        trials.want("a build without the kit", (1, "", no_kit.format("is not built yet")),
                    run([sys.executable, str(copy)], path=folder))
        executable(pathlib.Path(folder, "rt"), "#!/bin/sh\necho hx_board NOT PROVED\nexit 1\n")
        status, output, errors = run(words, path=folder)
        trials.want("a build that fails",
                    (1, "", ["hx_board NOT PROVED", "hx: the program was not built; what the kit said stands above"]),
                    (status, output, errors.splitlines()[1:]))


def try_unproved(trials):
    """A build without proofs takes a minute or two, so here it only refuses: wrong words, and no kit."""
    words = [sys.executable, "tools/build-unproved"]
    for wrong in ([], [""], ["--help"], ["a", "b"]):
        trials.want(f"build-unproved {wrong}", (2, "", "usage: tools/build-unproved OUT\n"), run([*words, *wrong]))
    with tempfile.TemporaryDirectory() as folder:
        out = pathlib.Path(folder, "hx")
        told = "build-unproved: the kit's command rt is not found: put the kit's folder bin into PATH\n"
        trials.want("build-unproved without the kit", (1, "", told), run([*words, str(out)], path=folder))
        trials.want("what is left of build-unproved without the kit", False, out.exists())
    trials.want("whether ./hx runs it", [], re.findall("unproved", (TOP / "hx").read_text()))


def try_measures(trials):
    """What bench/run says of no words and of a name that is none."""
    names = sorted({path.parent.name for part in ("uses", "command") for path in TOP.glob(f"bench/*/{part}")})
    usage = ("usage: bench/run [--instructions] NAME [WORD..]\n       bench/run --check [NAME..]\n"
             f"NAME is one of {' '.join(names)}\n")
    for words in ([], ["none"], ["--help"], ["--instructions"], ["--instructions", "none"]):
        trials.want(f"bench/run {words}", (2, "", usage), run(["bench/run", *words]))


TRIED = (try_builds, try_unproved, try_measures)
