"""What all pictures have: titles, legends, and blocks in a row."""

from __future__ import annotations

from collections.abc import Sequence
from typing import Any

from matplotlib.axes import Axes
from matplotlib.ticker import MaxNLocator, StrMethodFormatter

MANY = 80  # supersteps from which on bars touch one another


def name_axes(axes: Axes, title: str, x: str, y: str) -> None:
    """The title, above a row for the legend, and the names of the axes, which have integers."""
    axes.set_title(f"{title}\n", loc="left", fontsize=11)
    axes.set_xlabel(x)
    axes.set_ylabel(y)
    axes.spines[["top", "right"]].set_visible(False)
    for axis in (axes.xaxis, axes.yaxis):
        axis.set_major_locator(MaxNLocator(integer=True, steps=[1, 2, 5, 10], min_n_ticks=1))
        axis.set_major_formatter(StrMethodFormatter("{x:,.0f}"))


def legend(axes: Axes, handles: Sequence[Any] | None = None, columns: int = 4) -> None:
    """A legend in one row above the axes, on the right."""
    more = {"handles": handles} if handles is not None else {}
    axes.legend(
        loc="lower right",
        bbox_to_anchor=(1.0, 0.995),
        ncols=columns,
        frameon=False,
        fontsize=9,
        borderaxespad=0.1,
        **more,
    )


def blocks_on(
    axes: Axes, heights: Sequence[float], below: Sequence[float], colour: str, label: str | None = None
) -> None:
    """A block for each height, which stands on another height: bars with gaps, or where there are many one area."""
    if len(heights) < MANY:
        axes.bar(range(len(heights)), heights, bottom=below, width=0.8, color=colour, label=label)
        return
    edges = [at - 0.5 for at in range(len(heights) + 1)]
    tops = [low + height for low, height in zip(below, heights)]
    axes.stairs(tops, edges, baseline=below, fill=True, color=colour, label=label, linewidth=0)


def fit(axes: Axes, count: int) -> None:
    """So many supersteps or processes, from the one edge to the other."""
    axes.set_xlim(-0.5, max(count, 1) - 0.5)


def make_room(axes: Axes, most: int) -> None:
    """Room for a height of 1 where all heights are 0."""
    if not most:
        axes.set_ylim(0, 1.25)
