"""What the scripts of the gate share, each module about one thing: the built program, the C library made to fail, games
by trying each move, what was tried, tools/board, browsers. A script imports from here first: that makes the modules of
checkers/, conformance/ and tools/ known."""
import pathlib
import sys

TOP = pathlib.Path(__file__).resolve().parents[2]
EXAMPLES = TOP / "examples"
sys.path[:0] = [str(TOP / part) for part in ("tools", "checkers", "conformance")]
