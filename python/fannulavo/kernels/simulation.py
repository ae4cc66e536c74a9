"""Whole runs in plain Python, by the rules of docs/model.md: all turns of a superstep, then what they asked for."""

from __future__ import annotations

from collections.abc import Callable, Sequence
from dataclasses import dataclass

from fannulavo.causes import Cost
from fannulavo.errors import EndedTurn, NoSuchPlace
from fannulavo.kernels import limits
from fannulavo.kernels.context import Seen, Words
from fannulavo.kernels.inputs import Input
from fannulavo.places import Area, Get, Message, Turn, View
from fannulavo.reports import Report, Status

Table = tuple[tuple[Area, ...], ...]


@dataclass(frozen=True)
class Taken:
    """A turn that was taken: what it left, its memory after computing, and where it ended."""

    turn: Turn
    memory: Words
    end: EndedTurn


@dataclass(frozen=True)
class Superstep:
    """What the processes saw, and their turns; none where the limit was reached before them."""

    seen: tuple[Seen, ...]
    taken: tuple[Taken, ...]


def are_alike(items: Sequence[object]) -> bool:
    return all(item == items[0] for item in items)


def next_table(table: Table, turns: Sequence[Turn]) -> Table:
    """The slots that no pop names, and then one of the k-th pushes of all processes, for k = 0, 1, .."""
    kept = tuple(slot for place, slot in enumerate(table) if place not in turns[0].pops)
    return kept + tuple(zip(*(turn.pushes for turn in turns)))


def end_of(superstep: Superstep, number: int) -> Status | None:
    """How a superstep ends the run; None where it ends by delivery."""
    turns = [taken.turn for taken in superstep.taken]
    if any(turn.fault for turn in turns):
        return Status("faulted", number)
    faults = (
        ("S1", are_alike([turn.ended for turn in turns])),
        ("S2", are_alike([turn.tag_size for turn in turns])),
        ("S3", are_alike([turn.pops for turn in turns])),
        ("S4", are_alike([len(turn.pushes) for turn in turns])),
        ("S5", len(next_table(superstep.seen[0].table, turns)) <= limits.MOST_SLOTS),
    )
    is_halted = all(turn.ended == "halt" for turn in turns)
    for fault, holds in faults[: 1 if is_halted else None]:
        if not holds:
            return Status("syncfault", number, fault)
    return Status("halted") if is_halted else None


def _read(memory: Words, get: Get) -> Words:
    return memory[get.address : get.address + get.length]


def delivered(taken: Sequence[Taken]) -> tuple[list[Words], list[tuple[Message, ...]]]:
    """The next memories and queues. All gets are read before anything is written; puts are written last."""
    turns = [each.turn for each in taken]
    read = [[(get.into, _read(taken[get.owner].memory, get)) for get in turn.gets] for turn in turns]
    memories = [list(each.memory) for each in taken]
    queues: list[list[Message]] = [[] for _ in taken]
    for memory, blocks in zip(memories, read):
        for into, words in blocks:
            memory[into : into + len(words)] = words
    for turn in turns:
        for put in turn.puts:
            memories[put.target][put.address : put.address + len(put.words)] = put.words
        for send in turn.sends:
            queues[send.target].append(Message(send.tag, send.payload))
    return [tuple(memory) for memory in memories], [tuple(queue) for queue in queues]


def h_relation(turns: Sequence[Turn]) -> int:
    """The largest number of words that a process sends to other processes, or receives from them."""
    sent, received = [0] * len(turns), [0] * len(turns)
    for process, turn in enumerate(turns):
        moved = [(process, put.target, len(put.words)) for put in turn.puts]
        moved += [(get.owner, process, get.length) for get in turn.gets]
        moved += [(process, send.target, len(send.tag) + len(send.payload)) for send in turn.sends]
        for source, target, count in moved:
            if source != target:
                sent[source] += count
                received[target] += count
    return max(sent + received)


@dataclass(frozen=True)
class SimulatedRun:
    """A run: its report, and what each turn saw and left."""

    report: Report
    supersteps: tuple[Superstep, ...]

    def seen(self, superstep: int, process: int) -> Seen:
        """All that a process saw. `NoSuchPlace` where the run has no such view."""
        if 0 <= superstep < len(self.supersteps) and 0 <= process < len(self.supersteps[superstep].seen):
            return self.supersteps[superstep].seen[process]
        raise NoSuchPlace("place")

    def view(self, superstep: int, process: int) -> View:
        """The same as `Session.view` has it."""
        return self.seen(superstep, process).view

    def turn(self, superstep: int, process: int) -> Turn:
        """What its turn left, as `Session.turn` has it."""
        self.seen(superstep, process)
        if not self.supersteps[superstep].taken:
            raise NoSuchPlace("place")
        return self.supersteps[superstep].taken[process].turn

    @property
    def faulted(self) -> list[EndedTurn]:
        """Where the turns with a fault ended; all turns where the superstep's end has a fault."""
        last = self.supersteps[-1].taken
        ends = [taken.end for taken in last if taken.turn.fault or self.report.status.kind == "syncfault"]
        return ends if self.report.status.fault or self.report.faults else []


def _report(given: Input, supersteps: list[Superstep], status: Status, memories: Sequence[Words]) -> Report:
    costs, lines, faults = {}, {}, {}
    run = [superstep for superstep in supersteps if superstep.taken]
    for number, superstep in enumerate(run):
        turns = [taken.turn for taken in superstep.taken]
        work = max(turn.work for turn in turns)
        is_delivered = number + 1 < len(run) or status.kind == "limit"
        h = h_relation(turns) if is_delivered else 0
        costs[number] = Cost(work, h, work + h * given.g + given.l if is_delivered else work)
    for process in range(len(given.memory)):
        printed = tuple(line for superstep in run for line in superstep.taken[process].turn.lines)
        lines |= {process: printed} if printed else {}
        fault = run[-1].taken[process].turn.fault
        faults |= {process: fault} if fault else {}
    total = sum(cost.cost for cost in costs.values())
    return Report(0, status, faults, dict(enumerate(memories)), lines, costs, total)


def simulated(take: Callable[[Seen], Taken], given: Input) -> SimulatedRun:
    """The run of an input, where `take` takes a turn."""
    nprocs = len(given.memory)
    memories, queues = list(given.memory), [()] * nprocs
    table: Table = ()
    tag_size, supersteps = 0, []
    for number in range(given.limit + 1):
        places = enumerate(zip(given.args, memories, queues))
        seen = tuple(
            Seen(nprocs, pid, number, *parts, table, tag_size)  # type: ignore[arg-type]
            for pid, parts in places
        )
        supersteps.append(Superstep(seen, tuple(map(take, seen)) if number < given.limit else ()))
        taken = supersteps[-1].taken
        if not taken:
            break
        status = end_of(supersteps[-1], number)
        if status:
            report = _report(given, supersteps, status, [each.memory for each in taken])
            return SimulatedRun(report, tuple(supersteps))
        turns = [each.turn for each in taken]
        memories, queues = delivered(taken)  # type: ignore[assignment]
        table = next_table(table, turns)
        tag_size = tag_size if turns[0].tag_size is None else turns[0].tag_size
    return SimulatedRun(_report(given, supersteps, Status("limit"), memories), tuple(supersteps))
