"""A simulated context: what a turn sees, and the calls that it makes, by docs/calls.md."""

from __future__ import annotations

from collections.abc import Iterator, Sequence
from dataclasses import dataclass
from typing import NoReturn

from fannulavo.kernels import limits
from fannulavo.kernels.code import MODULUS
from fannulavo.places import Area, Get, Message, Put, Send, Store, Turn, View

MASK = MODULUS - 1
Words = tuple[int, ...]


class TurnEnded(Exception):
    """A turn has ended: by "sync" or "halt", or by a fault, as "F2 9"."""

    def __init__(self, ended: str | None, fault: str | None = None):
        super().__init__(ended or fault)
        self.ended = ended
        self.fault = fault


def end_by(fault: str) -> NoReturn:
    raise TurnEnded(None, fault)


@dataclass(frozen=True)
class Seen:
    """All that a process sees in a superstep. A slot of the table has an area for each process."""

    nprocs: int
    pid: int
    step: int
    args: Words
    memory: Words
    queue: tuple[Message, ...] = ()
    table: tuple[tuple[Area, ...], ...] = ()
    tag_size: int = 0

    @property
    def view(self) -> View:
        """The same as a session shows it."""
        slots = tuple(slot[self.pid] for slot in self.table)
        return View(self.args, self.memory, self.queue, slots, self.tag_size)


def word_at(words: Sequence[int], index: int, code: int = 1) -> int:
    """A word, or the end of the turn where it is missing."""
    if index >= len(words):
        end_by(f"F1 {code}")
    return words[index]


class Block:
    """Own words from a start up to an end, which are read by the call that uses them."""

    def __init__(self, memory: Memory, start: int, end: int):
        self._memory, self._start, self._end = memory, start, end

    def __iter__(self) -> Iterator[int]:
        if not self._start <= self._end <= len(self._memory):
            end_by("F1 1")
        return iter(self._memory.words[self._start : self._end])


class Memory:
    """The own memory. `stores` are the stores so far."""

    def __init__(self, words: Words):
        self.words = list(words)
        self.stores: list[tuple[int, int]] = []

    def __len__(self) -> int:
        return len(self.words)

    def __getitem__(self, address: int | slice) -> int | Block:
        if isinstance(address, slice):
            end = len(self) if address.stop is None else address.stop
            return Block(self, address.start or 0, end)
        if address >= len(self.words):
            end_by("F1 1")
        return self.words[address]

    def __setitem__(self, address: int, word: int) -> None:
        if address >= len(self.words):
            end_by("F5")
        self.words[address] = word = word & MASK
        self.stores.append((address, word))

    def __repr__(self) -> str:
        return repr(self.words)


class Indexed:
    """Words of which a missing one ends the turn by an abort with a code."""

    def __init__(self, words: Words, code: int):
        self._words, self._code = words, code

    def __getitem__(self, index: int) -> int:
        return word_at(self._words, index, self._code)

    def __len__(self) -> int:
        return len(self._words)

    def __repr__(self) -> str:
        return repr(list(self._words))


class Received(Indexed):
    """A message that was taken."""

    def __init__(self, message: Message, memory: Memory):
        super().__init__(message.payload, 1)
        self.tag = Indexed(message.tag, 1)
        self._memory = memory

    def move_into(self, into: int, most: int | None = None) -> None:
        """Stores its words from an address on: all, or the first ones."""
        for place, word in enumerate(self._words[:most]):
            self._memory[into + place] = word


def _in_ranges(stores: list[tuple[int, int]]) -> tuple[Store, ...]:
    """Stores, where those that go on where the one before ended are one."""
    ranges: list[tuple[int, list[int]]] = []
    for address, word in stores:
        if ranges and ranges[-1][0] + len(ranges[-1][1]) == address:
            ranges[-1][1].append(word)
        else:
            ranges.append((address, [word]))
    return tuple(Store(address, tuple(words)) for address, words in ranges)


class Context:
    """What a turn sees, and the calls that it makes. A call whose check fails ends the turn by its fault."""

    def __init__(self, seen: Seen):
        self.seen = seen
        self.nprocs, self.pid, self.step, self.tag_size = seen.nprocs, seen.pid, seen.step, seen.tag_size
        self.memory = Memory(seen.memory)
        self.args = Indexed(seen.args, 2)
        self.left = list(seen.queue)
        self.requests: list[Put | Get | Send | Area | int] = []
        self.chosen: int | None = None
        self.lines: list[Words] = []
        self.work = 0

    def turn(self, ended: TurnEnded) -> Turn:
        """What the turn leaves that ended so."""

        def all_of(kind: type) -> tuple:  # type: ignore[type-arg]
            return tuple(each for each in self.requests if type(each) is kind)

        return Turn(
            ended.ended, ended.fault, _in_ranges(self.memory.stores), all_of(Put), all_of(Get), all_of(Send),
            all_of(Area), all_of(int), self.chosen, tuple(self.lines), self.work,
        )  # fmt: skip

    # messages

    @property
    def messages_left(self) -> int:
        return len(self.left)

    @property
    def words_left(self) -> int:
        return sum(len(message.payload) for message in self.left)

    def messages(self, *needed: int) -> Iterator[Received]:
        """Takes the messages that are left. A tag without the words that are needed ends the turn."""
        while self.left:
            for index in needed:
                word_at(self.left[0].tag, index)
            yield Received(self.left.pop(0), self.memory)

    # checks

    def _check(self, holds: bool, fault: str) -> None:
        if not holds:
            end_by(fault)

    def _begin(self, pid: int | None = None) -> None:
        """A request, to a process where one is named."""
        self._check(len(self.requests) < limits.MOST_REQUESTS, "F8")
        if pid is not None:
            self._check(pid < self.nprocs, f"F2 {+pid}")

    def _slot(self, start: int, popped: Sequence[object] = ()) -> int:
        """The newest slot whose own area has this start."""
        for place in range(len(self.seen.table) - 1, -1, -1):
            if self.seen.table[place][self.pid].start == start and place not in popped:
                return place
        end_by(f"F3 {+start}")

    def _address(self, pid: int, area: int, offset: int, length: int) -> int:
        target = self.seen.table[self._slot(area)][pid]
        self._check(offset + length <= target.length, "F4")
        return target.start + offset

    # calls

    def charge(self, amount: int) -> None:
        self._check(self.work + amount <= limits.MOST_WORK, "F9")
        self.work += amount

    def put(self, pid: int, words: Sequence[int] | Block, area: int, offset: int = 0) -> None:
        sent = tuple(word & MASK for word in words)
        self._begin(pid)
        self.requests.append(Put(+pid, self._address(pid, area, offset, len(sent)), sent))

    def get(self, pid: int, area: int, offset: int, into: int, length: int) -> None:
        self._begin(pid)
        address = self._address(pid, area, offset, length)
        self._check(into + length <= len(self.memory), "F5")
        self.requests.append(Get(+pid, address, +length, +into))

    def send(self, pid: int, tag: Sequence[int], words: Sequence[int] | Block) -> None:
        sent = tuple(word & MASK for word in words)
        self._begin(pid)
        self._check(len(tag) == self.tag_size, "F6")
        self._check(len(sent) <= limits.MOST_PAYLOAD_WORDS, "F11")
        self.requests.append(Send(+pid, tuple(word & MASK for word in tag), sent))

    def push_reg(self, start: int, length: int) -> None:
        self._begin()
        self._check(start + length <= len(self.memory), "F5")
        self.requests.append(Area(+start, +length))

    def pop_reg(self, start: int) -> None:
        self._begin()
        self.requests.append(self._slot(start, [each for each in self.requests if type(each) is int]))

    def set_tagsize(self, size: int) -> int:
        self._check(size <= limits.MOST_TAG_WORDS, "F12")
        self.chosen = +size
        return self.tag_size

    def print(self, *words: int | Block) -> None:
        block = words[0] if len(words) == 1 and isinstance(words[0], Block) else words
        line = tuple(word & MASK for word in block)  # type: ignore[operator]
        self._check(len(self.lines) < limits.MOST_LINES, "F10")
        self._check(len(line) <= limits.MOST_LINE_WORDS, "F11")
        self.lines.append(line)

    def sync(self) -> NoReturn:
        raise TurnEnded("sync")

    def halt(self) -> NoReturn:
        raise TurnEnded("halt")

    def abort(self, code: int) -> NoReturn:
        end_by(f"F1 {+code}")
