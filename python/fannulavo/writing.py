"""Reports as text."""

from __future__ import annotations

from collections.abc import Iterable, Iterator, Mapping
from itertools import groupby

from fannulavo.reports import Block, Place, Refusal, Report, Unread


def _line(*fields: object) -> str:
    return " ".join(str(field) for field in fields) + "\n"


def _places(word: str, places: Iterable[Place] | None) -> Iterator[str]:
    """A line for each superstep with a place."""
    for superstep, group in groupby(places or (), key=lambda place: place.superstep):
        yield _line(word, superstep, *(place.process for place in group))


def _causes(what: str, causes: Mapping[Place, object]) -> Iterator[str]:
    return (_line("why", what, *place, told) for place, told in causes.items())


def _prints(report: Report) -> Iterator[str]:
    for process, lines in sorted(report.lines.items()):
        yield from (_line("print", process, *words) for words in lines)
        if not lines and not report.is_whole:
            yield _line("silent", process)


def _report(report: Report) -> Iterator[str]:
    yield _line("status", report.status)
    yield from (_line("fault", process, fault) for process, fault in sorted(report.faults.items()))
    yield from (_line("memory", process, *words) for process, words in sorted(report.memories.items()))
    yield from _prints(report)
    yield from (_line("cost", superstep, *cost) for superstep, cost in sorted(report.costs.items()))
    if report.supersteps is not None:
        yield _line("costs", report.supersteps)
    yield _line("total", report.total)
    yield from _places("turns", report.executed)
    yield from _places("deliveries", report.redelivered)
    if report.causes is not None:
        yield from _causes("turn", report.causes.turns)
        yield from _causes("delivery", report.causes.deliveries)
    if report.update_cost is not None:
        yield from (_line("update", superstep, *cost) for superstep, cost in report.update_cost.costs.items())
        yield _line("update", "total", report.update_cost.total)
    if report.executed_count is not None:
        yield _line("executed", report.executed_count, "redelivered", report.redelivered_count)


def write_report(blocks: Iterable[Block]) -> str:
    """The text of these blocks. That of the blocks of `read_report` is the text that was read."""
    text: list[str] = []
    for block in blocks:
        text.append(_line("run", block.run))
        if isinstance(block, Refusal):
            text.append(_line("refused", block.fault, "at", block.place))
        elif isinstance(block, Unread):
            text.append(_line("unread", block.reason))
        else:
            text += _report(block)
    return "".join(text)
