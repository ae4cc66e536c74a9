"""What a report says, block by block."""

from __future__ import annotations

from collections import deque
from collections.abc import Mapping, Sequence
from dataclasses import dataclass, replace

from fannulavo.causes import Causes, Cost, Place, UpdateCost
from fannulavo.later import Rows, unread


@dataclass(frozen=True)
class Status:
    """How a run ended: `kind` is "halted", "limit", "faulted" or "syncfault".

    The latter two have the superstep in which it was, and "syncfault" the fault of its end, S1 to S5.
    """

    kind: str
    superstep: int | None = None
    fault: str | None = None

    def __str__(self) -> str:
        told = (self.kind, self.superstep, self.fault)
        return " ".join(str(part) for part in told if part is not None)


@dataclass(frozen=True)
class Report:
    """What a run gave, and what of it was made anew against the run before.

    Of a tool with `--changes` it is not whole: `memories`, `lines` and `costs` have only what changed, and `after`
    completes it.
    """

    run: int
    """The number of the block, from 0."""
    status: Status
    faults: Mapping[int, str]
    """The processes with a fault, F1 to F12; of F1, F2 and F3 with its number, as "F2 9"."""
    memories: Mapping[int, tuple[int, ...]]
    """The words of each process at the end."""
    lines: Mapping[int, tuple[tuple[int, ...], ...]]
    """The lines that each process printed, of words."""
    costs: Mapping[int, Cost]
    """The cost of each superstep."""
    total: int
    executed_count: int | None = None
    """How many turns were taken; None with `--scratch`."""
    redelivered_count: int | None = None
    """How many deliveries were made; None with `--scratch`."""
    executed: Sequence[Place] | None = None
    """Which turns were taken, ascending; None where that is not told."""
    redelivered: Sequence[Place] | None = None
    """Which deliveries were made, ascending; None where that is not told."""
    causes: Causes | None = None
    """Why these turns were taken and these deliveries made; None where that is not told."""
    update_cost: UpdateCost | None = None
    """What these turns and deliveries cost; None where that is not told."""
    is_whole: bool = True
    supersteps: int | None = None
    """Of a report that is not whole: the number of supersteps where that changed."""

    @property
    def is_delivered_last(self) -> bool:
        """Whether the last superstep ended by delivery, as all others do."""
        return self.status.kind == "limit"

    def after(self, before: Report) -> Report:
        """The whole report, where this one has what changed against `before`, which is whole."""
        if self.is_whole:
            return self
        if not before.is_whole:
            raise ValueError("what the changes are against is not whole")
        costs = {**before.costs, **self.costs}
        count = len(before.costs) if self.supersteps is None else self.supersteps
        if len(costs) != count:
            costs = {superstep: costs[superstep] for superstep in range(count)}
        return replace(
            self,
            memories=Rows({**unread(before.memories), **unread(self.memories)}),
            lines=Rows({**unread(before.lines), **unread(self.lines)}),
            costs=costs,
            is_whole=True,
            supersteps=None,
        )

    def read(self) -> None:
        """Reads all that is told, so that nothing is left to be read later. `MalformedReport` where a line does not
        fit."""
        causes = self.causes.turns if self.causes else ()
        for told in (self.memories.values(), self.lines.values(), self.executed or (), self.redelivered or (), causes):
            deque(told, 0)


@dataclass(frozen=True)
class Refusal:
    """The batch of this block was refused: its first refused edit has this place, from 0, and this fault, E1 to E5."""

    run: int
    place: int
    fault: str


@dataclass(frozen=True)
class Unread:
    """The line of this block was no batch: J1, J3, J7 or "long"; or it was an `undo` and there was nothing to undo:
    "undo"."""

    run: int
    reason: str


Block = Report | Refusal | Unread
