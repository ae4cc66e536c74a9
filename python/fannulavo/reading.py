"""Reports out of text."""

from __future__ import annotations

import re
from dataclasses import replace
from typing import Any

from fannulavo.causes import Causes, Cost, DeliveryCauses, Place, Told, TurnCauses, UpdateCost
from fannulavo.errors import MalformedReport
from fannulavo.later import Later, LaterTuple, Rows, unread
from fannulavo.lines import Line, Lines
from fannulavo.reports import Block, Refusal, Report, Status, Unread

_NUMBER = "(0|[1-9][0-9]*)"
_STATUS = re.compile(f"(halted|limit)|(faulted) {_NUMBER}|(syncfault) {_NUMBER} (S[1-5])")
_FAULT = re.compile(f"{_NUMBER} (F[123] {_NUMBER}|F[4-9]|F1[0-2])")
_REFUSED = re.compile(f"(E[1-5]) at {_NUMBER}")
_COUNTS = re.compile(f"{_NUMBER} redelivered {_NUMBER}")
_COST = re.compile(f"^cost {_NUMBER} {_NUMBER} {_NUMBER} {_NUMBER}\n".encode(), re.MULTILINE)
_UPDATE = re.compile(f"total {_NUMBER}|{_NUMBER} {_NUMBER} {_NUMBER} {_NUMBER}")
_NUMBERS = "((?: (?:0|[1-9][0-9]*))+)"
# A part of a view or of a delivery stands behind a space: so there is one at least.
_VIEW = f"(?= )( args)?( queue)?( table)?( tagsize)?(?: word{_NUMBERS})?"
_TURN = re.compile(f"turn {_NUMBER} {_NUMBER}(?:( new)|{_VIEW})")
_PARTS = f"(?= )( memory)?( gets)?(?: read{_NUMBERS})?(?: puts{_NUMBERS})?(?: sends{_NUMBERS})?"
_DELIVERY = re.compile(f"delivery {_NUMBER} {_NUMBER}(?:( new)|{_PARTS})")


def _status(line: Line) -> Status:
    found = line.match(_STATUS, "a status")
    plain, faulted, at, sync, sync_at, fault = found.groups()
    if plain:
        return Status(plain)
    return Status(faulted, int(at)) if faulted else Status(sync, int(sync_at), fault)


def _faults(lines: Lines) -> dict[int, str]:
    found = (line.match(_FAULT, "a process and its fault") for line in lines.all_of(b"fault"))
    return {int(each[1]): each[2] for each in found}


def _words(line: Line) -> tuple[int, ...]:
    """The words of a process."""
    return tuple(line.numbers(1)[1:])


def _memories(lines: Lines) -> Rows[tuple[int, ...]]:
    return Rows({line.key(): Later(_words, line) for line in lines.all_of(b"memory")})


def _printed(lines: Lines) -> tuple[tuple[int, ...], ...]:
    return tuple(map(_words, lines))


def _prints(lines: Lines) -> Rows[tuple[tuple[int, ...], ...]]:
    """The lines of each process that has some, and none of each that is told to be silent."""
    printed: dict[int, Later[tuple[tuple[int, ...], ...]] | tuple[()]] = {}
    while True:
        while (process := lines.key_if(b"print")) is not None:
            if process in printed:
                raise lines.wrong("the lines of a process in one place")
            printed[process] = Later(_printed, lines.part_of(b"print %d" % process))
        silent = lines.next_if(b"silent")
        if silent is None:
            return Rows(printed)
        printed[silent.only(1)[0]] = ()


def _costs(lines: Lines) -> dict[int, Cost]:
    rows = lines.part_of(b"cost").all_as(_COST, "a superstep and its cost")
    return {int(superstep): Cost(int(work), int(h), int(cost)) for superstep, work, h, cost in rows}


def _count(lines: Lines) -> int:
    """How many places lines tell, of which each has a superstep and its processes."""
    return lines.count(b" ") - lines.count(b"\n")


def _placed(lines: Lines) -> tuple[Place, ...]:
    rows = (line.numbers(2) for line in lines)
    return tuple(Place(superstep, process) for superstep, *processes in rows for process in processes)


def _numbers(text: str | None) -> tuple[int, ...]:
    return tuple(map(int, (text or "").split()))


def _causes(turns: Lines, deliveries: Lines, lines: Lines) -> Told:
    """The causes of the turns and of the deliveries in these places, in their order."""
    told: Told = ({}, {})
    told_of_turns, told_of_deliveries = told
    rows = iter(lines)
    for place, line in zip(_placed(turns), rows):
        at, process, new, args, queue, table, tag_size, words = line.match(_TURN, "a turn and its causes").groups()
        if place != (int(at), int(process)):
            raise line.wrong("the turns in their order")
        told_of_turns[place] = TurnCauses(*map(bool, (new, args, queue, table, tag_size)), _numbers(words))
    for place, line in zip(_placed(deliveries), rows):
        at, process, new, memory, gets, *more = line.match(_DELIVERY, "a delivery and its causes").groups()
        if place != (int(at), int(process)):
            raise line.wrong("the deliveries in their order")
        told_of_deliveries[place] = DeliveryCauses(*map(bool, (new, memory, gets)), *map(_numbers, more))
    return told


def _update_cost(lines: Lines) -> UpdateCost | None:
    """What an update cost: a line for each superstep, and one with the sum."""
    costs: dict[int, Cost] = {}
    for line in lines.all_of(b"update"):
        total, *row = line.match(_UPDATE, "a superstep and its cost, or the sum").groups()
        if total is not None:
            return UpdateCost(costs, int(total))
        superstep, work, h, cost = map(int, row)
        costs[superstep] = Cost(work, h, cost)
    if costs:
        raise lines.wrong("a line 'update total'")
    return None


def _told(lines: Lines) -> dict[str, Any]:
    """What the last lines of a report tell of what was made anew. That there was nothing is told by its count too."""
    turns, deliveries, causes = lines.part_of(b"turns"), lines.part_of(b"deliveries"), lines.part_of(b"why")
    are_told = not (turns.is_over() and deliveries.is_over())
    cost = _update_cost(lines)
    line = lines.next_if(b"executed")
    if line is None:
        if are_told or cost or not causes.is_over():
            raise lines.wrong("a line 'executed'")
        return {}
    executed, redelivered = map(int, line.match(_COUNTS, "the counts of turns and deliveries").groups())
    if are_told and (_count(turns), _count(deliveries)) != (executed, redelivered):
        for part in (turns, deliveries):
            _placed(part)  # a line of theirs that does not fit comes before the counts
        raise line.wrong("as many places as are counted")
    have_causes = not causes.is_over()
    if have_causes and (not are_told or causes.count(b"\n") != executed + redelivered):
        raise line.wrong("as many causes as are counted, and their places")
    told = Causes(Later(_causes, turns, deliveries, causes))
    return {
        "executed_count": executed,
        "redelivered_count": redelivered,
        "executed": LaterTuple(executed, Later(_placed, turns)) if are_told or not executed else None,
        "redelivered": LaterTuple(redelivered, Later(_placed, deliveries)) if are_told or not redelivered else None,
        "causes": told if have_causes or not executed + redelivered else None,
        "update_cost": cost,
    }


def _report(run: int, lines: Lines) -> Report:
    """A report with what its block has."""
    status, faults = _status(lines.next(b"status")), _faults(lines)
    memories, printed, costs = _memories(lines), _prints(lines), _costs(lines)
    count = lines.next_if(b"costs")
    supersteps = None if count is None else count.only(1)[0]
    (total,) = lines.next(b"total").only(1)
    told = _told(lines)
    return Report(run, status, faults, memories, printed, costs, total, is_whole=False, supersteps=supersteps, **told)


def _block(lines: Lines) -> Block:
    (run,) = lines.next(b"run").only(1)
    if (line := lines.next_if(b"refused")) is not None:
        fault, place = line.match(_REFUSED, "a fault and its place").groups()
        return Refusal(run, int(place), fault)
    if (line := lines.next_if(b"unread")) is not None:
        return Unread(run, line.rest)
    return _report(run, lines)


def blocks_in(text: bytes | bytearray) -> list[Block]:
    """The blocks of a text. Each report has what its block has, and counts as not whole.

    `MalformedReport` where the lines are not those of blocks. The words of memories and of printed lines, and places,
    are read where they are asked for, and the fault comes there.
    """
    lines = Lines.of(text)
    blocks: list[Block] = []
    while not lines.is_over():
        blocks.append(_block(lines))
    return blocks


def whole(report: Report) -> Report:
    """A report whose block is a whole one. It has the lines of each process, those that printed none too."""
    lines = unread(report.lines)
    return replace(report, lines=Rows({process: lines.get(process, ()) for process in report.memories}), is_whole=True)


def _is_partial(report: Report) -> bool:
    """Whether a block can't be a whole one."""
    is_told = report.supersteps is not None or () in report.lines.values()
    memories, costs = list(report.memories), list(report.costs)
    has_all = bool(memories) and memories == list(range(len(memories))) and costs == list(range(len(costs)))
    return is_told or not has_all


def read_report(text: str, changes: bool | None = None) -> list[Block]:
    """The blocks of a report, of whatever options the tool had.

    `changes` says whether blocks after the first have only what changed. Where it is None they have if one of them
    can't be whole: that goes wrong only where each one has all memories and all costs, and then of processes whose
    lines did not change. `MalformedReport` where the text is no report.
    """
    blocks = blocks_in(text.encode(errors="replace"))
    reports = [block for block in blocks if isinstance(block, Report)]
    for report in reports:
        report.read()
    if changes is None:
        changes = any(map(_is_partial, reports))
    first = reports[0].run if reports and not _is_partial(reports[0]) else None
    return [
        whole(block) if isinstance(block, Report) and (not changes or block.run == first) else block
        for block in blocks
    ]
