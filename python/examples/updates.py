"""Draws the updates of which docs/updates.md tells: what an edit of prefix and an edit of heat reach and why, and what
three edits of heat cost.

usage: python3 python/examples/updates.py FOLDER [WORD..]

The pictures are written to FOLDER. The tools are crates/bsp_tool/out/bsp_tool and crates/heat/out/heat, which ./build
makes. With WORDs they are started by these words with `bsp_tool` or `heat` behind them.
"""

from __future__ import annotations

import sys
from pathlib import Path

ROOT = Path(__file__).resolve().parents[2]
sys.path.insert(0, str(ROOT / "python"))

from fannulavo import Report, Session, Word  # noqa: E402
from fannulavo.pictures import causes, save, update_costs  # noqa: E402

PROCESSES = 8
PREFIX = ("bsp_tool", "prefix", 10, [1, 0], [])
ROD = ("heat", "heat", 20, [0, 1000, 1000, 0], [12])
ONES = [Word(2, 0, 5)]  # of the words of prefix
CELLS = [Word(3, 1, 1001)], [Word(3, 1, 1010)], [Word(3, 1, 9000)]  # of the rod


def document(program: str, price: int, memory: list[int], args: list[int]) -> bytes:
    """The document of a program on equal memories."""
    keys = {"program": f'"{program}"', "limit": 16, "g": 4, "l": price}
    keys |= {"memory": [memory] * PROCESSES, "args": [args] * PROCESSES}
    return "".join(f"{key} = {value}\n" for key, value in keys.items()).encode()


def updates(tool: list[str], given: tuple, *batches: list[Word]) -> list[Report]:
    """The reports of these batches."""
    name, *rest = given
    command = [*tool, name] if tool else [str(ROOT / f"crates/{name}/out/{name}")]
    with Session(command, document(*rest), why=True, update_cost=True) as session:
        return [session.apply(batch) for batch in batches]


def main(words: list[str]) -> int:
    """Does what the words of the command line ask for, and tells what was taken again."""
    if not words:
        print(__doc__, end="", file=sys.stderr)
        return 2
    folder, *tool = words
    (sums,) = updates(tool, PREFIX, ONES)
    rods = updates(tool, ROD, *CELLS)
    save(causes(sums), f"{folder}/updates_prefix.svg")
    save(causes(rods[0]), f"{folder}/updates_heat.svg")
    save(update_costs(rods), f"{folder}/updates_costs.svg")
    for report in (sums, *rods):
        cost = report.update_cost
        assert cost is not None
        print(f"{report.executed_count} turns, {report.redelivered_count} deliveries, {cost.total} of {report.total}")
    return 0


if __name__ == "__main__":
    sys.exit(main(sys.argv[1:]))
