"""Opens heat in a rod over 64 processes, makes one cell hot, and draws how far that reaches.

usage: python3 python/examples/heat.py OUT.svg [TOOL [WORD..]]

TOOL is crates/heat/out/heat where it is not given; `./build heat` proves and builds it.
"""

from __future__ import annotations

import sys
from pathlib import Path

ROOT = Path(__file__).resolve().parents[2]
sys.path.insert(0, str(ROOT / "python"))

from fannulavo import Session, Word  # noqa: E402
from fannulavo.pictures import reach, save  # noqa: E402

PROCESSES = 64
CELLS = 2  # of each process; a word on either side has the neighbour's nearest cell
TIME_STEPS = 62
HOT = 2**62


def rod() -> bytes:
    """The document of a cold rod."""
    memory = [[0] * (CELLS + 2)] * PROCESSES
    args = [[TIME_STEPS]] * PROCESSES
    return f'program = "heat"\nlimit = 100\ng = 4\nl = 20\nmemory = {memory}\nargs = {args}\n'.encode()


def main(words: list[str]) -> int:
    """Does what the words of the command line ask for, and tells what was taken again."""
    if not words:
        print(__doc__, end="", file=sys.stderr)
        return 2
    out, *given = words
    tool = given or [str(ROOT / "crates/heat/out/heat")]
    if not Path(tool[0]).exists():
        print(f"{tool[0]} is not there: build it by ./run heat < crates/heat/stdin", file=sys.stderr)
        return 1
    with Session(tool, rod()) as session:
        opened = session.report
        report = session.apply([Word(PROCESSES // 2, 1, HOT)])
    save(reach(report), out)
    print(f"opened: {opened.executed_count} turns, {opened.redelivered_count} deliveries")
    print(f"one cell made hot: {report.executed_count} turns, {report.redelivered_count} deliveries")
    return 0


if __name__ == "__main__":
    sys.exit(main(sys.argv[1:]))
