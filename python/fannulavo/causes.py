"""Why turns and deliveries of a run were made anew, and what that cost."""

from __future__ import annotations

from collections.abc import Iterator, Mapping
from dataclasses import dataclass
from typing import Any, NamedTuple

from fannulavo.later import Later


class Place(NamedTuple):
    """A process in a superstep, both from 0."""

    superstep: int
    process: int


class Cost(NamedTuple):
    """A superstep's cost: the largest work of a process, the h-relation in words, and w + h*g + l, or w alone where
    no delivery ends it."""

    work: int
    h: int
    cost: int


def _told(flags: Mapping[str, bool], numbers: Mapping[str, tuple[int, ...]]) -> Iterator[str]:
    yield from (word for word, is_cause in flags.items() if is_cause)
    for word, places in numbers.items():
        if places:
            yield from (word, *map(str, places))


@dataclass(frozen=True)
class TurnCauses:
    """Why a turn was taken: the run before has no such turn, or a part of the view is another. As a text it is as in
    the report."""

    is_new: bool = False
    args: bool = False
    queue: bool = False
    table: bool = False
    tag_size: bool = False
    words: tuple[int, ...] = ()
    """The addresses at which the program looks, and whose words are others."""

    def __str__(self) -> str:
        flags = {"new": self.is_new, "args": self.args, "queue": self.queue, "table": self.table}
        return " ".join(_told({**flags, "tagsize": self.tag_size}, {"word": self.words}))


@dataclass(frozen=True)
class DeliveryCauses:
    """Why a delivery was made: the run before has no such delivery, or a part on which it depends is another. As a
    text it is as in the report."""

    is_new: bool = False
    memory: bool = False
    """The process's own memory after computing is another."""
    gets: bool = False
    """Its list of gets is another."""
    read: tuple[int, ...] = ()
    """The owners of which its gets, which are as before, read other words."""
    puts: tuple[int, ...] = ()
    """The senders whose puts to it are others."""
    sends: tuple[int, ...] = ()
    """The senders whose messages to it are others."""

    def __str__(self) -> str:
        flags = {"new": self.is_new, "memory": self.memory, "gets": self.gets}
        return " ".join(_told(flags, {"read": self.read, "puts": self.puts, "sends": self.sends}))


Told = tuple[dict[Place, TurnCauses], dict[Place, DeliveryCauses]]


class Causes:
    """The causes of each turn that was taken and of each delivery that was made, by place and in their order. They may
    be read later, when they are first asked for."""

    __slots__ = ("_told",)

    def __init__(self, told: Later[Told]):
        self._told = told

    @classmethod
    def of(cls, turns: dict[Place, TurnCauses], deliveries: dict[Place, DeliveryCauses]) -> Causes:
        """These causes."""
        return cls(Later(tuple, (turns, deliveries)))

    @property
    def turns(self) -> Mapping[Place, TurnCauses]:
        """Why each turn was taken."""
        return self._told.value[0]

    @property
    def deliveries(self) -> Mapping[Place, DeliveryCauses]:
        """Why each delivery was made."""
        return self._told.value[1]

    def __eq__(self, other: object) -> bool:
        if not isinstance(other, Causes):
            return NotImplemented
        return (self.turns, self.deliveries) == (other.turns, other.deliveries)

    def __hash__(self) -> int:
        return hash((*self.turns.items(), *self.deliveries.items()))

    def __repr__(self) -> str:
        return f"Causes.of({self.turns!r}, {self.deliveries!r})"

    def __reduce__(self) -> tuple[Any, ...]:
        return Causes.of, (self.turns, self.deliveries)


@dataclass(frozen=True)
class UpdateCost:
    """What an update cost, in the units of the run's cost: the turns that were taken and the deliveries that were made
    alone."""

    costs: Mapping[int, Cost]
    """Of each superstep in which a turn was taken or a delivery made."""
    total: int
