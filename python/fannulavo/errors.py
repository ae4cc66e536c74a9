"""What can go wrong."""

from __future__ import annotations

from collections.abc import Mapping, Sequence
from dataclasses import dataclass
from typing import TYPE_CHECKING

if TYPE_CHECKING:
    from fannulavo.reports import Report


class Error(Exception):
    """Anything that this package raises on its own account, an interrupt aside."""


class MalformedReport(Error, ValueError):
    """A text is no report: `line`, from 1, is the first that does not fit."""

    def __init__(self, line: int, text: str, wanted: str):
        super().__init__(f"line {line}: {text[:80]!r} in place of {wanted}")
        self.line = line
        self.text = text
        self.wanted = wanted


class Refused(Error):
    """A batch was refused, and nothing has changed. Of its first refused edit: the place in the batch, from 0, and
    the fault, E1 to E5."""

    def __init__(self, place: int, fault: str):
        super().__init__(f"{fault} at edit {place}")
        self.place = place
        self.fault = fault


class NotRead(Error):
    """A line was not read as a batch, and nothing has changed; `reason` is what the tool says of it, as J3."""

    def __init__(self, reason: str):
        super().__init__(f"the tool could not read the line: {reason}")
        self.reason = reason


class NothingToUndo(NotRead):
    """No accepted batch is left that stands."""


class NoSuchPlace(NotRead):
    """The run has no such view, or no such turn."""


class SessionClosed(Error):
    """The session is over: it was closed, or its tool has ended."""


def _told(what: str, said: str, errors: str, status: int | None) -> str:
    last = said.splitlines()[-1:]
    lines = [f"{what}, with status {status}"]
    lines += [f"it wrote last: {line[:80]!r}" for line in last]
    lines += [f"on standard error: {line}" for line in errors.splitlines()]
    return "\n".join(lines)


class ToolEnded(Error):
    """The tool has ended, or no longer answers as it should, and no process of it is left.

    `said` is what it wrote of the last answer, `errors` what it wrote to standard error, and `status` its exit
    status, which is the number of a signal with a minus where a signal ended it.
    """

    def __init__(self, what: str, said: str, errors: str, status: int | None):
        super().__init__(_told(what, said, errors, status))
        self.said = said
        self.errors = errors
        self.status = status


class Interrupted(KeyboardInterrupt):
    """An interrupt came while the tool was at work. It was ended, and no process of it is left. `said`, `errors` and
    `status` are as in `ToolEnded`."""

    def __init__(self, said: str, errors: str, status: int | None):
        super().__init__(_told("interrupted, and the tool was ended", said, errors, status))
        self.said = said
        self.errors = errors
        self.status = status


class KernelError(Error):
    """A kernel is refused where its text stands: in this file, on this line. `text` is the line, `instead` tells what
    to write in its place."""

    def __init__(self, why: str, instead: str, file: str, line: int, text: str, mark: str):
        super().__init__(f"{file}:{line}: {why}\n    {text}\n    {mark}\n{instead}")
        self.why = why
        self.instead = instead
        self.file = file
        self.line = line
        self.text = text


class NotInKernels(KernelError):
    """The text is outside the part of Python in which kernels are written."""


class NameNotSet(KernelError):
    """A name is not set, or not on every way that leads to the line."""


class Recursion(KernelError):
    """A helper calls itself, by itself or through other helpers."""


class TooManyRegisters(KernelError):
    """The locals and the words of an expression need more registers than the machine has."""


class CodeTooLong(KernelError):
    """The kernel has more instructions than a translation makes."""


class BadWord(Error, ValueError):
    """A number that is handed in is no word of a document."""


class BadMemories(Error, ValueError):
    """Memories or arguments that are handed in are no lists of words, one for each process."""


class ToolNotBuilt(Error):
    """There is no tool to run kernels with."""


class ToolWithoutKernels(ToolEnded):
    """The tool knows no kernels."""


@dataclass(frozen=True)
class EndedTurn:
    """Where the turn of a process ended: the line of the kernel's file, its text, and the locals there."""

    process: int
    file: str
    line: int
    text: str
    locals: Mapping[str, int]

    def __str__(self) -> str:
        words = ", ".join(f"{name} = {word}" for name, word in self.locals.items())
        place = f"process {self.process}, {self.file}:{self.line}: {self.text}"
        return f"{place}\n    with {words}" if words else place


_MOST_TOLD = 4  # of the turns of a run that faulted


class KernelFaulted(Error):
    """A kernel's run ended by a fault, in this superstep. `report` is its report. `turns` tells where the turns with a
    fault ended, and at a fault of the superstep's end where all turns did. The further members are of the first."""

    def __init__(self, report: Report, turns: Sequence[EndedTurn]):
        told = [f"{report.faults.get(turn.process, 'no fault')} in {turn}" for turn in turns]
        more = [f"and {len(told) - _MOST_TOLD} turns more"] if len(told) > _MOST_TOLD else []
        super().__init__("\n".join([f"the run ended {report.status}", *told[:_MOST_TOLD], *more]))
        self.report = report
        self.superstep = report.status.superstep
        self.turns = tuple(turns)
        first = turns[0] if turns else None  # a tool with other limits may fault where the simulation goes on
        self.process = first.process if first else min(report.faults, default=None)
        self.line = first.line if first else None
        self.locals = first.locals if first else {}
