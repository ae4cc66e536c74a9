"""Times kernels in Python: their translation, their simulation, and sessions of them.

usage: python3 python/bench/kernels.py [TOOL]

TOOL is the program of crates/bsp_kernel, and crates/bsp_kernel/out/bsp_kernel where it is not given;
`./build bsp_kernel` makes that. Without it the rows of sessions are left out. The kernel is
python/examples/kernels/heat.py, in a rod of 64 processes with 32 cells each: 100 time steps, and 10 where it is
simulated. An edit lowers the cell in the middle by 1, and the next one raises it again; rounding absorbs both. Each
time is the best of several.
"""

from __future__ import annotations

import sys
import time
from collections.abc import Callable
from pathlib import Path

ROOT = Path(__file__).resolve().parents[2]
sys.path.insert(0, str(ROOT / "python"))

from fannulavo import Input, Session, ToolNotBuilt, Word  # noqa: E402
from fannulavo.kernels.files import KernelFile  # noqa: E402
from fannulavo.kernels.kernel import Kernel  # noqa: E402
from fannulavo.kernels.machine import Machine  # noqa: E402
from fannulavo.kernels.running import words_of  # noqa: E402

PROCESSES, CELLS, STEPS, FEW_STEPS = 64, 32, 100, 10
PATH = ROOT / "python/examples/kernels/heat.py"


def best(times: int, work: Callable[[], object]) -> float:
    """The shortest of so many times, in milliseconds."""
    taken = []
    for _ in range(times):
        begin = time.perf_counter()
        work()
        taken.append(time.perf_counter() - begin)
    return min(taken) * 1_000


def rod(steps: int) -> Input:
    """What each time step leaves as it is."""
    memory = [[3 * i * (i - 1) // 2 for i in range(CELLS * pid, CELLS * (pid + 1) + 2)] for pid in range(PROCESSES)]
    return Input.of(memory, [steps])


def instructions(program: Kernel, given: Input) -> int:
    """How many a run follows."""
    count = 0
    for superstep in program.trace(given).supersteps:
        for seen in superstep.seen if superstep.taken else ():
            machine = Machine(program.code, program.constants, seen)
            machine.follow(program.budget)
            count += machine.followed
    return count


def sessions(program: Kernel, tool: list[str]) -> None:
    """Prints the rows of sessions."""
    given = rod(STEPS)
    keywords = {"memory": given.memory, "args": given.args, "tool": tool}
    print(f"a session is opened: {best(5, lambda: Session(program, **keywords).close()):.0f} ms")
    place, low = (PROCESSES // 2, 1), given.memory[PROCESSES // 2][1] - 1
    with Session(program, **keywords) as session:
        values = iter([low + k % 2 for k in range(200)])
        taken = best(200, lambda: session.apply([Word(*place, next(values))]).executed_count)
        print(f"an edit that rounding absorbs: {taken:.2f} ms, {session.report.executed_count} turns")


def main(words: list[str]) -> int:
    """Prints the rows."""
    program = KernelFile.read(str(PATH)).program
    names: dict[str, object] = {}
    source = PATH.read_text(encoding="utf-8")
    print(f"a kernel is translated: {best(20, lambda: exec(compile(source, str(PATH), 'exec'), names)):.1f} ms")
    given = rod(FEW_STEPS)
    taken = best(5, lambda: program.trace(given))
    print(f"simulated: {instructions(program, given) / taken:,.0f} thousand instructions a second")
    try:
        sessions(program, words_of(words or None))
    except ToolNotBuilt as error:
        print(error)
    return 0


if __name__ == "__main__":
    sys.exit(main(sys.argv[1:]))
