"""The picture of an update with its causes: steps that were made anew, and arrows between them."""

from __future__ import annotations

from collections.abc import Iterable
from dataclasses import dataclass
from typing import Any

from matplotlib.axes import Axes
from matplotlib.lines import Line2D

from fannulavo.causes import DeliveryCauses, TurnCauses
from fannulavo.measures import Arrow, Part, Step, arrows
from fannulavo.reports import Report

MOST_PROCESSES = 16
_TURN, _DELIVERY, _EDIT, _OWN, _OTHER = "#00507F", "#C07800", "#000000", "#9A9A9A", "#D55E00"
_SHADE = "#F2F2F2"
_NAMES = {_TURN: "view", _OWN: "own memory, gets", _OTHER: "another process"}
_COLOURS = {
    Part.WORDS: _TURN,
    Part.QUEUE: _TURN,
    Part.ARGS: _EDIT,
    Part.MEMORY: _OWN,
    Part.GETS: _OWN,
    Part.READ: _OTHER,
    Part.PUTS: _OTHER,
    Part.SENDS: _OTHER,
}
_SIDE = 0.22  # of a superstep: the turn stands so far before its middle, the delivery so far behind it
_MANY = 24  # supersteps from which on marks are smaller


@dataclass(frozen=True)
class _Mark:
    """How a step is drawn."""

    marker: str
    colour: str
    inner: str
    name: str

    def draw(self, axes: Axes, x: float, y: float, size: float) -> None:
        axes.plot(x, y, markersize=size, **self._how())

    def handle(self) -> Line2D:
        return Line2D([], [], label=self.name, **self._how())

    def _how(self) -> dict[str, Any]:
        return {"marker": self.marker, "color": self.colour, "markerfacecolor": self.inner, "linestyle": ""}


_STAR = _Mark("*", _EDIT, _EDIT, "edit")
_TAKEN = _Mark("s", _TURN, _TURN, "turn")
_FOR_ALL = _Mark("D", _TURN, _TURN, "turn, by table or tag size")
_NEW = _Mark("s", _TURN, "white", "new turn")
_MADE = _Mark("o", _DELIVERY, _DELIVERY, "delivery")
_NEWLY_MADE = _Mark("o", _DELIVERY, "white", "new delivery")


def _mark_of(causes: TurnCauses | DeliveryCauses) -> _Mark:
    if isinstance(causes, DeliveryCauses):
        return _NEWLY_MADE if causes.is_new else _MADE
    if causes.is_new:
        return _NEW
    return _FOR_ALL if causes.table or causes.tag_size else _TAKEN


def _at(step: Step) -> tuple[float, float]:
    superstep, process = step.place
    return superstep + (_SIDE if step.is_delivery else -_SIDE), process


def _draw_arrow(axes: Axes, arrow: Arrow, size: float) -> None:
    """An arrow between two marks. One from the edit comes from a star beside its mark."""
    end = _at(arrow.target)
    start = _at(arrow.source) if arrow.source else (end[0] - 0.16, end[1] - 0.36)
    if not arrow.source:
        _STAR.draw(axes, *start, size)
    colour = _COLOURS[arrow.part] if arrow.source else _EDIT
    how = {"arrowstyle": "-|>", "color": colour, "linewidth": 0.9, "mutation_scale": size * 1.2}
    axes.annotate("", end, start, arrowprops={**how, "shrinkA": size * 0.5, "shrinkB": size * 0.55})


def _steps(report: Report) -> dict[Step, _Mark]:
    """The steps of a report, and how each is drawn."""
    assert report.causes is not None
    told = ((report.causes.turns, False), (report.causes.deliveries, True))
    return {Step(place, made): _mark_of(each) for causes, made in told for place, each in causes.items()}


def _handles(marks: Iterable[_Mark], found: list[Arrow]) -> list[Any]:
    """What stands in a legend for marks and arrows."""
    drawn = [*([_STAR] if any(arrow.source is None for arrow in found) else []), *marks]
    colours = {_COLOURS[arrow.part] for arrow in found if arrow.source}
    handles: list[Any] = [mark.handle() for mark in dict.fromkeys(drawn)]
    return handles + [Line2D([], [], color=colour, label=name) for colour, name in _NAMES.items() if colour in colours]


def draw_causes(axes: Axes, report: Report) -> list[Any]:
    """Draws the turns and deliveries of a report and what each of them got something else from. What stands for them
    in a legend. `ValueError` where the report doesn't tell the causes, or has more than 16 processes."""
    found = arrows(report)
    if len(report.memories) > MOST_PROCESSES:
        raise ValueError(f"report {report.run} has {len(report.memories)} processes, and more than {MOST_PROCESSES}")
    size = 7.0 if len(report.costs) < _MANY else 4.0
    for superstep in range(0, len(report.costs), 2):
        axes.axvspan(superstep - 0.5, superstep + 0.5, color=_SHADE, linewidth=0, zorder=0)
    for arrow in found:
        _draw_arrow(axes, arrow, size)
    steps = _steps(report)
    for step, mark in steps.items():
        mark.draw(axes, *_at(step), size)
    return _handles(steps.values(), found)
