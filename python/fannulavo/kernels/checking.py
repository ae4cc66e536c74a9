"""Comparisons of a kernel's function with its instructions, and of its simulation with a tool."""

from __future__ import annotations

import random
from collections.abc import Iterable, Iterator

from fannulavo.errors import Error
from fannulavo.kernels.code import MODULUS
from fannulavo.kernels.context import Seen
from fannulavo.kernels.inputs import Input
from fannulavo.kernels.kernel import Kernel
from fannulavo.kernels.running import Command, run
from fannulavo.places import Area, Message
from fannulavo.reports import Report
from fannulavo.writing import write_report

BUDGET = 20_000  # of a turn at a drawn view


class Differs(Error):
    """A turn or a run is not the same both ways."""


def _word(rng: random.Random) -> int:
    return rng.choice((rng.randrange(8), rng.randrange(8), rng.randrange(MODULUS), MODULUS - 1 - rng.randrange(3)))


def _words(rng: random.Random, most: int) -> tuple[int, ...]:
    return tuple(_word(rng) for _ in range(rng.randrange(most + 1)))


def drawn_view(rng: random.Random) -> Seen:
    """A view of any kind, with small numbers more often than large ones."""
    nprocs, memory = rng.randrange(1, 6), _words(rng, 14)
    start = (0, 0, 1, len(memory) - 1, 3)
    slots = [
        tuple(Area(max(rng.choice(start), 0), rng.randrange(6)) for _ in range(nprocs)) for _ in range(rng.randrange(4))
    ]
    queue = tuple(Message(_words(rng, 2), _words(rng, 5)) for _ in range(rng.randrange(4)))
    args = tuple(rng.randrange(6) for _ in range(rng.randrange(5)))
    pid, step = rng.randrange(nprocs), rng.choice((0, 1, 2, 3, 4, 9))
    return Seen(nprocs, pid, step, args, memory, queue, tuple(slots), rng.randrange(3))


def changed_view(rng: random.Random, seen: Seen) -> Seen:
    """A view of a run with one word changed."""
    memory = list(seen.memory)
    if memory:
        memory[rng.randrange(len(memory))] = _word(rng)
    return Seen(seen.nprocs, seen.pid, seen.step, seen.args, tuple(memory), seen.queue, seen.table, seen.tag_size)


def compare_at(program: Kernel, seen: Seen) -> None:
    """A turn by the function and by the instructions. `Differs` where they leave different parts."""
    function, code = program.turn(seen, BUDGET), program.turn_by_instructions(seen, BUDGET)
    if (function.turn, function.memory) != (code.turn, code.memory):
        told = f"the function leaves {function.turn}\nthe instructions leave {code.turn}"
        raise Differs(f"{program.name} at {seen}\n{told}\nin {function.end}\nand in {code.end}")


def compare_views(program: Kernel, inputs: Iterable[Input] = (), count: int = 300, seed: int = 0) -> int:
    """Compares turns at so many drawn views, and at views of runs of these inputs. How many there were."""
    rng = random.Random(seed)
    views = [drawn_view(rng) for _ in range(count)]
    for given in inputs:
        of_run = [seen for superstep in program.trace(given).supersteps for seen in superstep.seen]
        views += [changed_view(rng, seen) for seen in rng.sample(of_run, min(len(of_run), 30))]
    for seen in views:
        compare_at(program, seen)
    return len(views)


def _compare(name: str, given: Input, way: str, one: Report, other: Report) -> None:
    texts = write_report([one]), write_report([other])
    if texts[0] != texts[1]:
        differing = next((pair for pair in zip(*map(str.splitlines, texts)) if pair[0] != pair[1]), texts)
        raise Differs(f"{name} on {given}: the simulation says {differing[0]!r}, {way} {differing[1]!r}")


def compare_runs(program: Kernel, inputs: Iterable[Input], tool: Command | None = None, with_tool: bool = True) -> int:
    """Compares whole runs of the function, of the instructions, and of the tool. How many there were."""
    count = 0
    for count, given in enumerate(inputs, 1):
        report = program.trace(given).report
        _compare(program.name, given, "the instructions", report, program.trace(given, by_instructions=True).report)
        if with_tool:
            _compare(program.name, given, "the tool", report, run(program, given, tool=tool, may_fault=True))
    return count


def drawn_inputs(rng: random.Random, count: int) -> Iterator[Input]:
    """Small inputs of any kind, with few supersteps."""
    for _ in range(count):
        nprocs = rng.randrange(1, 5)
        memory = [[rng.randrange(8) for _ in range(rng.randrange(8))] for _ in range(nprocs)]
        yield Input.of(memory, [rng.randrange(5) for _ in range(rng.randrange(4))], rng.randrange(1, 9), 4, 10)
