"""Edits of an input, and what they make anew in a run."""
from __future__ import annotations

from dataclasses import dataclass, replace

from modelled.limits import HIGHEST_PRICE, MOST_SUPERSTEPS
from modelled.runs import Input, Run, delivery_to
from modelled.turns import Program, View, Words


@dataclass(frozen=True)
class Edit:
    """A part of the input that gets other values: a word or an argument by process and place, the limit, or the prices."""

    part: str
    numbers: list[int]

    def fault(self, given: Input) -> str | None:
        if self.part == "limit":
            return None if 1 <= self.numbers[0] <= MOST_SUPERSTEPS else "E4"
        if self.part == "prices":
            return None if max(self.numbers) <= HIGHEST_PRICE else "E5"
        pid, place, _ = self.numbers
        if pid >= len(given.memories):
            return "E1"
        if self.part == "word":
            return None if place < len(given.memories[pid]) else "E2"
        return None if place < len(given.args[pid]) else "E3"

    def make(self, given: Input) -> Input:
        if self.part == "limit":
            return replace(given, limit=self.numbers[0])
        if self.part == "prices":
            return replace(given, g=self.numbers[0], l=self.numbers[1])
        if self.part == "word":
            return replace(given, memories=with_number(given.memories, *self.numbers))
        return replace(given, args=with_number(given.args, *self.numbers))


def with_number(lists: tuple[Words, ...], pid: int, place: int, value: int) -> tuple[Words, ...]:
    changed = [list(words) for words in lists]
    changed[pid][place] = value
    return tuple(tuple(words) for words in changed)


def serves(program: Program, old: View, new: View) -> bool:
    """The views are equal but for words at which the program doesn't look."""
    if replace(old, memory=new.memory) != new or len(old.memory) != len(new.memory):
        return False
    pairs = enumerate(zip(old.memory, new.memory))
    return all(a == b or not program.looks(old, address) for address, (a, b) in pairs)


def places_executed(program: Program, old: Run | None, new: Run) -> list[tuple[int, int]]:
    """The places of the new run whose turn has to be taken: the old run has no such superstep, or a view that doesn't serve."""
    before = old.supersteps if old else []
    return [
        (step, pid)
        for step, superstep in enumerate(new.supersteps)
        for pid, view in enumerate(superstep.views)
        if step >= len(before) or not serves(program, before[step].views[pid], view)
    ]


def places_redelivered(old: Run | None, new: Run) -> list[tuple[int, int]]:
    """The places of the new run to which a superstep delivers, where the old run delivered nothing there or on something else."""
    before = [s for s in old.supersteps if s.is_delivered] if old else []
    return [
        (step, pid)
        for step, superstep in enumerate(s for s in new.supersteps if s.is_delivered)
        for pid in range(len(superstep.outcomes))
        if step >= len(before) or delivery_to(pid, before[step].outcomes) != delivery_to(pid, superstep.outcomes)
    ]
