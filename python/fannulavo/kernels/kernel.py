"""Kernels: functions that are marked with @kernel."""

from __future__ import annotations

import json
from collections.abc import Callable, Iterable
from types import TracebackType
from typing import Any, NoReturn, overload

from fannulavo.edits import Edit
from fannulavo.errors import EndedTurn, KernelFaulted
from fannulavo.kernels.code import Instruction, Origin
from fannulavo.kernels.context import Context, Seen, TurnEnded
from fannulavo.kernels.inputs import Input, word_of
from fannulavo.kernels.machine import BUDGET, Looks, Machine
from fannulavo.kernels.python_form import OverBudget, PythonForm, locals_of
from fannulavo.kernels.simulation import SimulatedRun, Taken, simulated
from fannulavo.kernels.source import Source
from fannulavo.kernels.translation import translated
from fannulavo.reports import Report

_PLAIN = {
    "number": (1,), "jump": (0,), "unless": (1,), "unless_lt": (2,), "put": (2,), "send": (2, 4), "print": (1,),
    "send_block": (2,), "send_constants": (2,),
}  # fmt: skip
"""The operands that are no registers."""


class Kernel:
    """A function of a turn, as instructions and as Python.

    `code` are the instructions, `constants` the numbers that stand beside them, and `budget` is the most instructions
    of a turn. As a text a kernel is its instructions beside the lines of its source.
    """

    def __init__(self, function: Callable[..., Any], budget: int = BUDGET):
        self._source = Source(function)
        made = translated(self._source)
        self.name, self.file = function.__name__, self._source.file
        self.code, self.constants, self.budget = made.code, made.constants, word_of(budget, "the budget")
        self._origins = made.origins
        self._numbers = {register: f"={word}" for word, register in made.numbers.items()}
        self._form = PythonForm(self._source, made.helpers)
        self.__name__, self.__doc__ = function.__name__, function.__doc__

    def __call__(self, *_: object) -> NoReturn:
        raise TypeError(f"{self.name} is a kernel: run it by {self.name}.simulate(memory), run or Session")

    def __repr__(self) -> str:
        return f"<kernel {self.name} of {self.file}, {len(self.code)} instructions>"

    # the text form

    def _told(self, row: Instruction, origin: Origin) -> str:
        """An instruction with the names of locals."""
        names = self._numbers | {register: name for name, register in origin.registers.items()}
        name, *operands = row
        places = _PLAIN.get(str(name), ())
        told = [
            str(each) if place in places else names.get(int(each), f"r{each}") for place, each in enumerate(operands)
        ]
        return " ".join([str(name), *told])

    def __str__(self) -> str:
        """The instructions, each with its place. Beside the first of a line of the source stands that line."""
        lines, before = [], None
        for place, (row, origin) in enumerate(zip(self.code, self._origins)):
            line = f"{place:5}  {self._told(row, origin)}"
            if before != (origin.source, origin.line):
                line = f"{line:40}  {origin.line:4}  {origin.source.text_at(origin.line)}"
            before = origin.source, origin.line
            lines.append(line)
        return "\n".join(lines)

    # turns and runs

    def looks(self, seen: Seen) -> list[int]:
        """The addresses at which a turn looks. Where these words and the rest of what it sees stay, no update takes it
        again."""
        return Looks(self.code, self.constants, seen).addresses()

    def turn_by_instructions(self, seen: Seen, budget: int | None = None) -> Taken:
        """A turn by the machine, which follows at most so many instructions."""
        machine = Machine(self.code, self.constants, seen)
        ended = machine.follow(self.budget if budget is None else budget)
        source, line, words = self._source, self._source.first, {}
        if self.code:
            origin = self._origins[machine.last]
            source, line = origin.source, origin.line
            words = {name: machine.registers[register] for name, register in origin.registers.items()}
        end = self._end(seen, source, line, words)
        return Taken(machine.context.turn(ended), tuple(machine.context.memory.words), end)

    def turn(self, seen: Seen, budget: int | None = None) -> Taken:
        """A turn by the function. A turn of so many rounds that it may pass its budget is taken by the machine."""
        context = Context(seen)
        most = self.budget if budget is None else budget
        self._form.rounds.left = most // (len(self.code) + 1) - 1
        source, line, words = self._source, self._source.definition.end_lineno or 0, {}
        try:
            self._form.function(context)
            ended = TurnEnded("sync")
        except OverBudget:
            return self.turn_by_instructions(seen, budget)
        except (TurnEnded, ZeroDivisionError) as error:
            ended = error if isinstance(error, TurnEnded) else TurnEnded(None, "F1 5")
            source, line, words = self._ended_at(error.__traceback__)
        return Taken(context.turn(ended), tuple(context.memory.words), self._end(seen, source, line, words))

    def _ended_at(self, trace: TracebackType | None) -> tuple[Source, int, dict[str, int]]:
        """The last line of the kernel or of a helper on a way into a call, and the words there."""
        found = self._source, self._source.first, dict[str, int]()
        while trace is not None:
            source = self._form.codes.get(trace.tb_frame.f_code)
            if source is not None:
                found = source, trace.tb_lineno, locals_of(trace.tb_frame.f_locals)
            trace = trace.tb_next
        return found

    def _end(self, seen: Seen, source: Source, line: int, words: dict[str, int]) -> EndedTurn:
        return EndedTurn(seen.pid, source.file, line, source.text_at(line), words)

    def trace(self, memory: Any, args: Any = None, *, by_instructions: bool = False, **rest: Any) -> SimulatedRun:
        """A whole run in plain Python, with what each turn saw and left. `rest` has the limit and the prices g and l.
        The turns are those of the function, or with `by_instructions` of its instructions."""
        given = memory if isinstance(memory, Input) else Input.of(memory, args, **rest)
        return simulated(self.turn_by_instructions if by_instructions else self.turn, given)

    def simulate(self, memory: Any, args: Any = None, *, may_fault: bool = False, **rest: Any) -> Report:
        """The report of a whole run in plain Python, as the tool gives it from scratch. `KernelFaulted` where the run
        ends by a fault; with `may_fault` the report tells it."""
        run = self.trace(memory, args, **rest)
        if run.faulted and not may_fault:
            raise KernelFaulted(run.report, run.faulted)
        return run.report

    # documents

    def keys(self) -> str:
        """The lines of a document that are the kernel: each line of the source as a comment above its instructions."""
        rows, before = [], None
        for row, origin in zip(self.code, self._origins):
            if before != (origin.source, origin.line):
                text = "".join(each if each.isprintable() else " " for each in origin.source.text_at(origin.line))
                rows.append(f"  # {origin.line}: {text}\n")
            before = origin.source, origin.line
            rows.append(f"  {json.dumps(row)},\n")
        budget = f"budget = {self.budget}\n" if self.budget != BUDGET else ""
        constants = f"constants = {json.dumps(self.constants)}\n" if self.constants else ""
        return f"# {self.name}\nkernel = [\n{''.join(rows)}]\n{constants}{budget}"


@overload
def kernel(function: Callable[..., Any], *, budget: int = BUDGET) -> Kernel: ...
@overload
def kernel(*, budget: int = BUDGET) -> Callable[[Callable[..., Any]], Kernel]: ...
def kernel(
    function: Callable[..., Any] | None = None, *, budget: int = BUDGET
) -> Kernel | Callable[[Callable[..., Any]], Kernel]:
    """Makes a kernel of a function of one parameter, its context: `@kernel`, or `@kernel(budget=n)`, with which a turn
    follows at most n instructions. A `KernelError` where the function is outside of the part of Python in which kernels
    are written."""
    if function is None:
        return lambda marked: Kernel(marked, budget)
    return Kernel(function, budget)


def document(
    program: Kernel, memory: Any, args: Any = None, *, batches: Iterable[Iterable[Edit]] = (), **rest: Any
) -> str:
    """The document of a kernel and an input, for `bsp_kernel`. `rest` has the limit and the prices g and l."""
    given = memory if isinstance(memory, Input) else Input.of(memory, args, **rest)
    return program.keys() + given.text(batches)
