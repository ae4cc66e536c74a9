"""What a process saw in a superstep, and what its turn left."""

from __future__ import annotations

import re
from dataclasses import dataclass
from typing import NamedTuple

from fannulavo.lines import Line, Lines

_ENDED = re.compile("sync|halt")
_FAULT = re.compile("F[123] (?:0|[1-9][0-9]*)|F[4-9]|F1[0-2]")

Words = tuple[int, ...]


class Message(NamedTuple):
    """A message of a queue."""

    tag: Words
    payload: Words


class Area(NamedTuple):
    """So many words of the own memory, from a start on, that are registered."""

    start: int
    length: int


class Store(NamedTuple):
    """Words that were stored in the own memory one behind the other, from an address on."""

    address: int
    words: Words


class Put(NamedTuple):
    """Words for the memory of a process, from an address on."""

    target: int
    address: int
    words: Words


class Get(NamedTuple):
    """So many words of the owner's memory from an address on, for the own memory from `into` on."""

    owner: int
    address: int
    length: int
    into: int


class Send(NamedTuple):
    """A message for a process."""

    target: int
    tag: Words
    payload: Words


@dataclass(frozen=True)
class View:
    """What a process saw in a superstep."""

    args: Words
    memory: Words
    queue: tuple[Message, ...]
    slots: tuple[Area, ...]
    """The own area in each slot of the registration table, by slot."""
    tag_size: int


@dataclass(frozen=True)
class Turn:
    """What the turn of a process left."""

    ended: str | None
    """"sync" or "halt"; None where the turn has a fault."""
    fault: str | None
    """The fault, F1 to F12; of F1, F2 and F3 with its number, as "F2 9"."""
    stores: tuple[Store, ...]
    puts: tuple[Put, ...]
    gets: tuple[Get, ...]
    sends: tuple[Send, ...]
    pushes: tuple[Area, ...]
    pops: Words
    """The slots that were popped."""
    tag_size: int | None
    """The tag size that was chosen, if one was."""
    lines: tuple[Words, ...]
    """The lines that were printed, of words."""
    work: int


def _words(lines: Lines, word: bytes) -> Words:
    return tuple(lines.next(word).numbers(0))


def _only(lines: Lines, word: bytes) -> int:
    return lines.next(word).only(1)[0]


def _message(numbers: list[int], line: Line) -> Message:
    """A message of which the number of words of its tag comes first."""
    count, *words = numbers
    if count > len(words):
        raise line.wrong(f"a tag of {count} words")
    return Message(tuple(words[:count]), tuple(words[count:]))


def _slots(lines: Lines) -> tuple[Area, ...]:
    areas: list[Area] = []
    for line in lines.all_of(b"slot"):
        slot, *area = line.only(3)
        if slot != len(areas):
            raise line.wrong(f"slot {len(areas)}")
        areas.append(Area(*area))
    return tuple(areas)


def _head(lines: Lines, word: bytes, place: tuple[int, int]) -> None:
    line = lines.next(word)
    if tuple(line.only(2)) != place:
        raise line.wrong(f"the {word.decode()} of superstep {place[0]} and process {place[1]}")


def _end(lines: Lines) -> None:
    """Sees that the line `end` is the last."""
    lines.next(b"end").only(0)
    if not lines.is_over():
        raise lines.wrong("nothing behind the line 'end'")


def view_in(text: bytes | bytearray, place: tuple[int, int]) -> View:
    """The view of a place, as a text. `MalformedReport` where the text is none."""
    lines = Lines.of(text)
    _head(lines, b"view", place)
    args, memory = _words(lines, b"args"), _words(lines, b"memory")
    queue = tuple(_message(line.numbers(1), line) for line in lines.all_of(b"message"))
    view = View(args, memory, queue, _slots(lines), _only(lines, b"tagsize"))
    _end(lines)
    return view


def _put(line: Line) -> Put:
    target, address, *words = line.numbers(2)
    return Put(target, address, tuple(words))


def _store(line: Line) -> Store:
    address, *words = line.numbers(2)
    return Store(address, tuple(words))


def _send(line: Line) -> Send:
    target, *message = line.numbers(2)
    return Send(target, *_message(message, line))


def _ended(lines: Lines) -> tuple[str | None, str | None]:
    """How a turn ended, or its fault."""
    line = lines.next_if(b"fault")
    if line is not None:
        return None, line.match(_FAULT, "a fault")[0]
    return lines.next(b"ended").match(_ENDED, "'sync' or 'halt'")[0], None


def turn_in(text: bytes | bytearray, place: tuple[int, int]) -> Turn:
    """The turn of a place, as a text. `MalformedReport` where the text is none."""
    lines = Lines.of(text)
    _head(lines, b"turn", place)
    ended, fault = _ended(lines)
    turn = Turn(
        ended,
        fault,
        stores=tuple(map(_store, lines.all_of(b"store"))),
        puts=tuple(map(_put, lines.all_of(b"put"))),
        gets=tuple(Get(*line.only(4)) for line in lines.all_of(b"get")),
        sends=tuple(map(_send, lines.all_of(b"send"))),
        pushes=tuple(Area(*line.only(2)) for line in lines.all_of(b"push")),
        pops=tuple(line.only(1)[0] for line in lines.all_of(b"pop")),
        tag_size=next((line.only(1)[0] for line in lines.all_of(b"tagsize")), None),
        lines=tuple(tuple(line.numbers(0)) for line in lines.all_of(b"print")),
        work=_only(lines, b"work"),
    )
    _end(lines)
    return turn
