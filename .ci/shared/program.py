"""The built program: that it is there, runs of it side by side, and another one in its place."""
import concurrent.futures
import importlib.machinery
import importlib.util
import os
import shutil
import sys

from tree_page.program import PROGRAM

from . import TOP

LONGEST = 60  # seconds until a run is given up


def status_of(main, *words):
    """How a script ends that runs the program, which must be built."""
    if not os.access(PROGRAM, os.X_OK):
        print(f"{PROGRAM} is missing: ./hx builds it")
        return 1
    return main(*words)


def times_wanted(usual):
    """How often something is drawn: as often as the script's word says, or as is usual."""
    return int(sys.argv[1]) if len(sys.argv) == 2 else usual


def told(what, faults, most=None):
    """How many faults there are. Prints them, or so many, and then a line that counts."""
    for fault in faults[:most]:
        print(fault)
    print(f"{what}, {len(faults)} wrong")
    return len(faults)


def in_threads(call, *lists):
    with concurrent.futures.ThreadPoolExecutor(os.cpu_count()) as pool:
        return list(pool.map(call, *lists))


def in_processes(call, *lists):
    with concurrent.futures.ProcessPoolExecutor() as pool:
        return list(pool.map(call, *lists))


def script(path):
    """A script as a module, which other processes find too."""
    loader = importlib.machinery.SourceFileLoader(f"script_{path.name}", str(path))
    module = importlib.util.module_from_spec(importlib.util.spec_from_loader(loader.name, loader))
    sys.modules[loader.name] = module
    loader.exec_module(module)
    return module


def executable(path, text):
    path.parent.mkdir(parents=True, exist_ok=True)
    path.write_text(text)
    path.chmod(0o755)


def copy_of_tools(folder):
    """Copies what the scripts of tools/ are made of. Where the program stands that they start then."""
    for part in ("tools", "checkers"):
        shutil.copytree(TOP / part, folder / part)
    return folder / PROGRAM.relative_to(TOP)
