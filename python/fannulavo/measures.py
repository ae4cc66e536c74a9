"""What the pictures show, computed from reports. No picture is made here, and matplotlib isn't needed."""

from __future__ import annotations

from collections.abc import Iterable, Iterator, Sequence
from dataclasses import dataclass
from enum import Enum, IntFlag
from itertools import groupby, zip_longest

from fannulavo.causes import Causes, DeliveryCauses, TurnCauses
from fannulavo.edits import Prices
from fannulavo.reports import Cost, Place, Report


@dataclass(frozen=True)
class Bar:
    """The cost of a superstep in its parts: w, h*g and l."""

    superstep: int
    work: int
    communication: int
    synchronisation: int

    @property
    def cost(self) -> int:
        """The height of the bar."""
        return self.work + self.communication + self.synchronisation


class Cell(IntFlag):
    """What was made anew at a place. Where it is nothing, all was taken over from the run before."""

    NOTHING = 0
    TURN = 1
    DELIVERY = 2
    BOTH = 3


@dataclass(frozen=True)
class Stretch:
    """So many cells in a row, from a superstep on, that are alike."""

    superstep: int
    count: int
    cell: Cell


class Part(Enum):
    """Through what a turn or a delivery depends on what was made anew before it."""

    WORDS = "words of the view"
    QUEUE = "messages of the view"
    ARGS = "arguments"
    MEMORY = "own memory"
    GETS = "gets"
    READ = "words read"
    PUTS = "puts"
    SENDS = "messages sent"


@dataclass(frozen=True)
class Step:
    """A turn or a delivery that was made anew."""

    place: Place
    is_delivery: bool


@dataclass(frozen=True)
class Arrow:
    """That one step was made anew since another was, or, where there is none before it, since the input was edited."""

    source: Step | None
    target: Step
    part: Part


@dataclass(frozen=True)
class StepCost:
    """What a superstep costs in a run and in the update that made the run."""

    superstep: int
    run: int
    update: int


@dataclass(frozen=True)
class CostChange:
    """What a superstep costs in two runs; None where a run has no such superstep."""

    superstep: int
    before: int | None
    after: int | None

    @property
    def difference(self) -> int:
        """By how much the superstep is dearer than before; a superstep that there is not costs 0."""
        return (self.after or 0) - (self.before or 0)


def _rows(report: Report) -> list[Cost]:
    """The cost rows of a whole report, by superstep."""
    if not report.is_whole:
        raise ValueError(f"report {report.run} has only what changed: complete it by `after`")
    return [cost for _, cost in sorted(report.costs.items())]


def _delivered(report: Report) -> list[Cost]:
    rows = _rows(report)
    return rows if report.is_delivered_last else rows[:-1]


def prices_of(report: Report) -> Prices | None:
    """The prices g and l that the cost rows tell. None where they don't: where all h-relations are alike, or there
    is no delivery.

    `ValueError` where the rows are not those of any prices.
    """
    delivered = _delivered(report)
    if not delivered:
        return None
    least = min(delivered, key=lambda row: row.h)
    most = max(delivered, key=lambda row: row.h)
    if least.h == most.h and least.h > 0:
        return None
    g = (most.cost - most.work - least.cost + least.work) // max(most.h - least.h, 1)
    prices = Prices(g, least.cost - least.work - least.h * g)
    if any(row.cost != row.work + row.h * prices.g + prices.l for row in delivered):
        raise ValueError(f"the cost rows of report {report.run} are of no prices")
    return prices


def cost_bars(report: Report, prices: Prices | None = None) -> list[Bar]:
    """The cost of each superstep, by its parts. The prices are those that the rows tell, where none are given.

    Where neither tells them, `communication` is h*g + l, which can't be told apart then, and `synchronisation` 0.
    `ValueError` where the rows are not those of these prices.
    """
    found = prices or prices_of(report)
    bars, count = [], len(_delivered(report))
    for superstep, (work, h, cost) in enumerate(_rows(report)):
        is_delivered = superstep < count
        moved = cost - work if found is None else h * found.g * is_delivered
        bar = Bar(superstep, work, moved, found.l * is_delivered if found else 0)
        if bar.cost != cost:
            raise ValueError(f"cost row {superstep} of report {report.run} is not of {found}")
        bars.append(bar)
    return bars


def _mark(cells: list[list[Cell]], places: Iterable[Place], cell: Cell) -> None:
    for superstep, process in places:
        cells[process][superstep] |= cell


def reach_cells(report: Report) -> list[list[Cell]]:
    """Of each process, of each superstep, what was made anew. `ValueError` where the report doesn't tell the places,
    as with `--places` it does."""
    if report.executed is None or report.redelivered is None:
        raise ValueError(f"report {report.run} doesn't tell the places: run the tool with --places")
    count = len(_rows(report))
    cells = [[Cell.NOTHING] * count for _ in report.memories]
    _mark(cells, report.executed, Cell.TURN)
    _mark(cells, report.redelivered, Cell.DELIVERY)
    return cells


def stretches(cells: Sequence[Cell]) -> list[Stretch]:
    """The cells of a process, those that are alike and stand side by side as one."""
    found, superstep = [], 0
    for cell, group in groupby(cells):
        count = len(list(group))
        found.append(Stretch(superstep, count, cell))
        superstep += count
    return found


def _causes(report: Report) -> Causes:
    if report.causes is None:
        raise ValueError(f"report {report.run} doesn't tell the causes: run the tool with --why")
    return report.causes


class _Reach:
    """The steps of a report, each of which can be traced back to those before it."""

    def __init__(self, causes: Causes):
        self.causes = causes

    def delivered(self, place: Place) -> Step | None:
        """The delivery that the view of a place comes from. None in superstep 0, whose views come from the input."""
        superstep, process = place
        return Step(Place(superstep - 1, process), True) if superstep else None

    def computed(self, superstep: int, process: int) -> Step | None:
        """The step from which the memory after computing comes: the turn, where that was taken, else the delivery
        before it."""
        place = Place(superstep, process)
        return Step(place, False) if place in self.causes.turns else self.delivered(place)

    def into_turn(self, place: Place, causes: TurnCauses) -> Iterator[Arrow]:
        parts = {Part.WORDS: bool(causes.words), Part.QUEUE: causes.queue, Part.ARGS: causes.args}
        for part in (part for part, is_cause in parts.items() if is_cause):
            yield Arrow(None if part is Part.ARGS else self.delivered(place), Step(place, False), part)

    def into_delivery(self, place: Place, causes: DeliveryCauses) -> Iterator[Arrow]:
        superstep, process = place
        own = {Part.MEMORY: causes.memory, Part.GETS: causes.gets}
        others = {Part.READ: causes.read, Part.PUTS: causes.puts, Part.SENDS: causes.sends}
        sources = [(part, process) for part, is_cause in own.items() if is_cause]
        sources += [(part, other) for part, processes in others.items() for other in processes]
        for part, source in sources:
            yield Arrow(self.computed(superstep, source), Step(place, True), part)


def arrows(report: Report) -> list[Arrow]:
    """From where each turn and each delivery got what was another: from a delivery or a turn that was made anew, or
    from the edit. New ones, and tables and tag sizes, which all processes make together, have no arrow.

    `ValueError` where the report doesn't tell the causes, as with `--why` it does.
    """
    causes = _causes(report)
    reach = _Reach(causes)
    turns = [arrow for told in causes.turns.items() for arrow in reach.into_turn(*told)]
    return turns + [arrow for told in causes.deliveries.items() for arrow in reach.into_delivery(*told)]


def step_costs(report: Report) -> list[StepCost]:
    """What each superstep costs in a run, and in the update that made it. `ValueError` where the report doesn't tell
    what the update cost, as with `--update-cost` it does."""
    if report.update_cost is None:
        raise ValueError(f"report {report.run} doesn't tell what the update cost: run the tool with --update-cost")
    updated = report.update_cost.costs
    rows = enumerate(_rows(report))
    return [StepCost(step, row.cost, updated[step].cost if step in updated else 0) for step, row in rows]


def cost_changes(before: Report, after: Report) -> list[CostChange]:
    """What each superstep costs in two runs, of which one may be longer."""
    pairs = zip_longest(_rows(before), _rows(after))
    return [
        CostChange(step, old.cost if old else None, new.cost if new else None) for step, (old, new) in enumerate(pairs)
    ]


def words_changed(before: Report, after: Report) -> list[int]:
    """Of each process the number of words of its memory that differ at the end of two runs. `ValueError` where they
    have not as many processes."""
    if not (before.is_whole and after.is_whole):
        raise ValueError("a report has only what changed: complete it by `after`")
    if before.memories.keys() != after.memories.keys():
        raise ValueError("the runs have not the same processes")
    pairs = [(before.memories[process], after.memories[process]) for process in sorted(after.memories)]
    return [sum(old != new for old, new in zip_longest(*pair)) for pair in pairs]


def lines_changed(before: Report, after: Report) -> list[int]:
    """The processes that did not print the same in two runs."""
    return [process for process, lines in sorted(after.lines.items()) if before.lines.get(process) != lines]
