"""Times edits by a Session, and over a bare pipe to the same tool, with and without --changes.

usage: python3 python/bench/edits.py [TOOL]

TOOL is the program of crates/bsp_tool, and crates/bsp_tool/out/bsp_tool where it is not given; ./build makes that.
64 memories of 250 words each are edited: a word of process 5, with which its memory alone changes, and the word that
process 0 broadcasts, with which each memory changes. An edit is timed to the end of its answer, and where memories
are read to the end of that. The table has the medians of 200 edits, each of which changes something, in milliseconds.
The times want idle cores; on a busy machine `chrt --fifo 50` before the command puts it before all other processes.
"""

from __future__ import annotations

import statistics
import sys
import time
from collections.abc import Callable, Iterator
from contextlib import contextmanager
from itertools import count
from pathlib import Path

ROOT = Path(__file__).resolve().parents[2]
sys.path[:0] = [str(ROOT / "python"), str(ROOT / "python/tests")]

from fannulavo import Report, Session, Word  # noqa: E402
from pipes import Pipe  # noqa: E402

PROCESSES, WORDS = 64, 250  # of each process
EDITS = 200
PLACES = {"one memory": (5, 3), "every memory": (0, 0)}  # of the edited words, by what changes with them

Edit = Callable[[int, int, int], object]
"""Gives a process's word, by its offset, a value."""


def document() -> bytes:
    """A broadcast of the first word of process 0, from memories of long words."""
    memory = [[10**18 + word for word in range(WORDS)]] * PROCESSES
    args = [[0]] * PROCESSES
    return f'program = "broadcast"\nlimit = 16\ng = 4\nl = 10\nmemory = {memory}\nargs = {args}\n'.encode()


@contextmanager
def piped(tool: str, *options: str) -> Iterator[Edit]:
    """Edits over a bare pipe."""
    with Pipe([tool], document(), *options) as pipe:
        yield lambda *numbers: pipe.ask(b'[["word", %d, %d, %d]]' % numbers)


@contextmanager
def in_session(tool: str, look: Callable[[Report], object]) -> Iterator[Edit]:
    """Edits by a session, of which each report is looked at."""
    with Session(tool, document()) as session:
        yield lambda *numbers: look(session.apply([Word(*numbers)]))


def look_away(report: Report) -> None:
    """Reads nothing."""


def read_memories(report: Report) -> list[tuple[int, ...]]:
    """Reads each word."""
    return list(report.memories.values())


def milliseconds(edit: Edit, place: tuple[int, int]) -> float:
    """The median time of the edits of a place, each to a new value."""
    times = []
    for value in range(EDITS):
        begun = time.perf_counter()
        edit(*place, value)
        times.append(time.perf_counter() - begun)
    return 1000 * statistics.median(times)


def main(words: list[str]) -> int:
    """Prints a row for each way to edit."""
    tool = words[0] if words else str(ROOT / "crates/bsp_tool/out/bsp_tool")
    if len(words) > 1 or not Path(tool).exists():
        print(__doc__, end="", file=sys.stderr)
        return 2
    ways = {
        "a bare pipe": lambda: piped(tool, "--places"),
        "a bare pipe with --changes": lambda: piped(tool, "--places", "--changes"),
        "a session whose report nobody reads": lambda: in_session(tool, look_away),
        "a session whose memories are all read": lambda: in_session(tool, read_memories),
    }
    print(f"{'an edit changes':40}{''.join(f'{name:>16}' for name in PLACES)}")
    for name, way in ways.items():
        with way() as edit:
            times = [milliseconds(edit, place) for place in PLACES.values()]
        print(f"{name:40}{''.join(f'{each:13.2f} ms' for each in times)}")
    return 0


if __name__ == "__main__":
    sys.exit(main(sys.argv[1:]))
