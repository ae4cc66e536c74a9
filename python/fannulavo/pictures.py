"""Pictures of reports, by matplotlib (`pip install fannulavo[pictures]`, or Debian's python3-matplotlib).

Each function gives a matplotlib `Figure` of its own, outside of pyplot. `save` writes one to a file: the same
picture gives the same bytes each time.
"""

from __future__ import annotations

import os
from collections.abc import Callable, Iterable, Sequence
from typing import Any

from matplotlib import rc_context
from matplotlib.axes import Axes
from matplotlib.figure import Figure
from matplotlib.patches import Patch

from fannulavo.drawing import MANY, blocks_on, fit, legend, make_room, name_axes
from fannulavo.edits import Prices
from fannulavo.measures import (
    Cell,
    cost_bars,
    cost_changes,
    lines_changed,
    prices_of,
    reach_cells,
    step_costs,
    stretches,
    words_changed,
)
from fannulavo.reports import Block, Report
from fannulavo.traces import MOST_PROCESSES, draw_causes

# After the palette of Okabe and Ito. Those of one picture differ in lightness too, so that they can be told apart with
# any colour blindness, and in grey.
_BLUE = "#00507F"
_SKY = "#4A9FD6"
_ORANGE = "#F3B63F"
_GREEN = "#006B4E"
_RED = "#D55E00"
_BLACK = "#000000"
_PALE = "#F0F0F0"
_WORK, _COMMUNICATION, _SYNCHRONISATION = "#00609C", "#E69F00", "#9AD9C3"
_CELLS = {
    Cell.NOTHING: (_PALE, "taken over"),
    Cell.TURN: (_SKY, "turn taken again"),
    Cell.DELIVERY: (_ORANGE, "delivered again"),
    Cell.BOTH: (_BLUE, "both"),
}
_WIDTH, _COSTS, _COMPARISON = 10.0, 3.6, [3.2, 2.6, 2.6]  # inches: of each picture the width, and of these the heights
_UPDATE_COST = 2.4
_MOST_SHAPES = 8_000  # of a picture that is drawn in lines, and not in pixels


def _draw_costs(axes: Axes, report: Report, prices: Prices | None) -> None:
    bars = cost_bars(report, prices)
    title = f"Run {report.run}, {report.status}: cost of each superstep, {report.total:,} in total"
    name_axes(axes, title, "superstep", "cost (units of work)")
    is_split = prices is not None or prices_of(report) is not None
    parts = [
        (_WORK, "work w", [bar.work for bar in bars]),
        (_COMMUNICATION, "communication h\u00b7g" if is_split else "h\u00b7g + l", [bar.communication for bar in bars]),
        (_SYNCHRONISATION, "synchronisation l", [bar.synchronisation for bar in bars]),
    ]
    below = [0] * len(bars)
    for colour, name, heights in parts[: 3 if is_split else 2]:
        blocks_on(axes, heights, below, colour, f"{name}: {sum(heights):,}")
        below = [low + height for low, height in zip(below, heights)]
    fit(axes, len(bars))
    make_room(axes, report.total)
    legend(axes)


def _draw_reach(axes: Axes, report: Report) -> None:
    cells = reach_cells(report)
    count = len(report.costs)
    turns = f"{report.executed_count:,} of {len(cells) * count:,} turns taken"
    name_axes(axes, f"Run {report.run}: {turns}, {report.redelivered_count:,} deliveries made", "superstep", "process")
    rows = [(process, stretches(row)) for process, row in enumerate(cells)]
    in_pixels = sum(len(row) for _, row in rows) > _MOST_SHAPES
    is_fine = count > 500  # a cell may be less than a pixel
    gap = 0.12 if len(cells) <= 16 else 0.0
    axes.set_facecolor(_PALE)
    for process, row in rows:
        for cell in (Cell.TURN, Cell.DELIVERY, Cell.BOTH):
            spans = [(each.superstep - 0.5, each.count) for each in row if each.cell == cell]
            if spans:
                low = (process - 0.5 + gap / 2, 1 - gap)
                how = {"facecolors": _CELLS[cell][0], "linewidth": 0, "antialiased": is_fine, "rasterized": in_pixels}
                axes.broken_barh(spans, low, **how)
    if count <= 64 and len(cells) <= 64:
        axes.vlines([at - 0.5 for at in range(1, count)], -0.5, len(cells) - 0.5, colors="white", linewidth=0.6)
    fit(axes, count)
    axes.set_ylim(len(cells) - 0.5, -0.5)
    legend(
        axes,
        [Patch(facecolor=colour, edgecolor="#999999", linewidth=0.5, label=name) for colour, name in _CELLS.values()],
    )


def _draw_both_costs(axes: Axes, before: Report, after: Report) -> None:
    changes = cost_changes(before, after)
    totals = f"total {before.total:,}, then {after.total:,} ({after.total - before.total:+,})"
    name_axes(axes, f"Run {before.run} and run {after.run}: {totals}", "superstep", "cost (units of work)")
    blocks_on(axes, [each.after or 0 for each in changes], [0] * len(changes), _SKY, f"run {after.run}")
    edges = [at - 0.5 for at in range(len(changes) + 1)]
    width = 1.0 if len(changes) < MANY else 0.4
    axes.stairs([each.before or 0 for each in changes], edges, color=_BLACK, linewidth=width, label=f"run {before.run}")
    fit(axes, len(changes))
    make_room(axes, before.total + after.total)
    legend(axes)


def _draw_difference(axes: Axes, before: Report, after: Report) -> None:
    differences = [each.difference for each in cost_changes(before, after)]
    changed = sum(each != 0 for each in differences)
    title = f"{changed:,} of {len(differences):,} supersteps cost otherwise"
    name_axes(axes, title, "superstep", "difference (units of work)")
    zeros = [0] * len(differences)
    blocks_on(axes, [max(each, 0) for each in differences], zeros, _RED, "dearer")
    blocks_on(axes, [min(each, 0) for each in differences], zeros, _GREEN, "cheaper")
    axes.axhline(0, color=_BLACK, linewidth=0.6)
    if not changed:
        axes.set_ylim(-1, 1)
    fit(axes, len(differences))
    legend(axes)


def _draw_words(axes: Axes, before: Report, after: Report) -> None:
    words, printed = words_changed(before, after), lines_changed(before, after)
    title = f"{sum(words):,} words of {sum(map(bool, words)):,} processes differ at the end"
    name_axes(axes, title, "process", "words that differ")
    axes.bar(range(len(words)), words, width=0.8, color=_BLUE, label="words of memory")
    if printed:
        top = max(max(words), 1) * 1.12
        axes.plot(
            printed,
            [top] * len(printed),
            linestyle="",
            marker="v",
            markersize=4,
            color=_RED,
            label="printed lines differ",
        )
    make_room(axes, sum(words))
    fit(axes, len(words))
    legend(axes)


def _draw_update_cost(axes: Axes, report: Report) -> None:
    steps = step_costs(report)
    cost = sum(step.update for step in steps)
    title = f"Run {report.run}: its update costs {cost:,}, the run {report.total:,}"
    name_axes(axes, title, "superstep", "cost (units of work)")
    blocks_on(axes, [step.update for step in steps], [0] * len(steps), _BLUE, "update")
    edges = [at - 0.5 for at in range(len(steps) + 1)]
    width = 1.0 if len(steps) < MANY else 0.4
    axes.stairs([step.run for step in steps], edges, color=_BLACK, linewidth=width, label="run")
    fit(axes, len(steps))
    make_room(axes, report.total)
    legend(axes)


def _figure(heights: Sequence[float]) -> tuple[Figure, Sequence[Axes]]:
    """A figure with pictures of these heights, in inches, one below the other."""
    figure = Figure(figsize=(_WIDTH, sum(heights)), layout="constrained", facecolor="white")
    return figure, figure.subplots(len(heights), 1, squeeze=False, gridspec_kw={"height_ratios": heights})[:, 0]


def _reach_height(report: Report) -> float:
    """Inches in which each process can be told from the next."""
    return 1.6 + max(1.5, 0.075 * len(report.memories))


def _causes_height(report: Report) -> float:
    return 1.4 + max(1.2, 0.42 * len(report.memories))


def _draw_causes(axes: Axes, report: Report) -> None:
    turns = f"{report.executed_count:,} turns taken, {report.redelivered_count:,} deliveries made"
    name_axes(axes, f"Run {report.run}: {turns}", "superstep", "process")
    handles = draw_causes(axes, report)
    fit(axes, len(report.costs))
    axes.set_ylim(len(report.memories) - 0.4, -0.6)
    legend(axes, handles, len(handles))


def _draw_comparison(axes: Sequence[Axes], before: Report, after: Report) -> None:
    upper, middle, lower = axes
    _draw_both_costs(upper, before, after)
    _draw_difference(middle, before, after)
    _draw_words(lower, before, after)


def costs(report: Report, prices: Prices | None = None) -> Figure:
    """The cost of each superstep, split into w, h*g and l. Prices need to be given only where the cost rows don't
    tell them (`measures.cost_bars`)."""
    figure, axes = _figure([_COSTS])
    _draw_costs(axes[0], report, prices)
    return figure


def reach(report: Report) -> Figure:
    """Supersteps by processes: where a turn was taken again, where a delivery was made again, and what was taken
    over. Of a report with places."""
    figure, axes = _figure([_reach_height(report)])
    _draw_reach(axes[0], report)
    return figure


def causes(report: Report) -> Figure:
    """Where a turn was taken again and where a delivery was made again, with an arrow from what each of them got
    something else from. Of a report with causes, of at most 16 processes."""
    figure, axes = _figure([_causes_height(report)])
    _draw_causes(axes[0], report)
    return figure


def update_costs(reports: Iterable[Report]) -> Figure:
    """What each superstep costs in a run, and in the update that made the run: a picture for each of these reports, on
    one scale."""
    told = list(reports)
    figure, axes = _figure([_UPDATE_COST] * len(told))
    for at, report in enumerate(told):
        _draw_update_cost(axes[at], report)
    for limits in ("xlim", "ylim"):
        ends = [getattr(each, f"get_{limits}")() for each in axes]
        for each in axes:
            getattr(each, f"set_{limits}")(min(low for low, _ in ends), max(high for _, high in ends))
    return figure


def compare(before: Report, after: Report) -> Figure:
    """What each superstep costs in two runs, the difference, and in which processes memories and lines differ at the
    end."""
    figure, axes = _figure(_COMPARISON)
    _draw_comparison(axes, before, after)
    return figure


def _whole(blocks: Iterable[Block]) -> list[Report]:
    """The reports among blocks. Those that have only what changed are completed."""
    reports: list[Report] = []
    for block in blocks:
        if isinstance(block, Report):
            reports.append(block.after(reports[-1]) if reports else block)
    return reports


def page(blocks: Iterable[Block]) -> Figure:
    """All pictures of the last report among these blocks that they allow: its costs, what its update cost, its reach
    where its places are told, with arrows where its causes are told, and the comparison with the report before.
    `ValueError` where there is no report."""
    reports = _whole(blocks)
    if not reports:
        raise ValueError("there is no report to be drawn")
    last = reports[-1]
    drawn: list[tuple[float, Callable[[Axes], None]]] = [(_COSTS, lambda axes: _draw_costs(axes, last, None))]
    if last.update_cost is not None:
        drawn.append((_UPDATE_COST, lambda axes: _draw_update_cost(axes, last)))
    if last.executed is not None and last.redelivered is not None:
        drawn.append((_reach_height(last), lambda axes: _draw_reach(axes, last)))
    if last.causes is not None and len(last.memories) <= MOST_PROCESSES:
        drawn.append((_causes_height(last), lambda axes: _draw_causes(axes, last)))
    figure, axes = _figure([*(height for height, _ in drawn), *(_COMPARISON if len(reports) > 1 else [])])
    for each, (_, draw) in zip(axes, drawn):
        draw(each)
    if len(reports) > 1:
        _draw_comparison(axes[-3:], *reports[-2:])
    return figure


def save(figure: Figure, path: str | os.PathLike[str]) -> None:
    """Writes a picture to a file, in the format of its ending (.svg, .png, .pdf). The same picture gives the same
    bytes."""
    ending = os.fspath(path).rpartition(".")[2].lower()
    dates = {"svg": {"Date": None}, "pdf": {"CreationDate": None}}
    with rc_context({"svg.hashsalt": "fannulavo", "svg.fonttype": "path"}):
        figure.savefig(path, dpi=150, metadata=dates.get(ending))
