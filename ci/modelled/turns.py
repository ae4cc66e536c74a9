"""What a process sees, what it can do in its turn, and what the turn leaves."""
from __future__ import annotations

from dataclasses import dataclass

from modelled.limits import MOST_LINE_WORDS, MOST_LINES, MOST_PAYLOAD_WORDS, MOST_REQUESTS, MOST_TAG_WORDS, MOST_WORK

MODULUS = 2**64  # of sums and products of words

Words = tuple[int, ...]


@dataclass(frozen=True)
class Area:
    """Words of a memory that are registered."""

    start: int
    length: int


@dataclass(frozen=True)
class Put:
    """Words for another memory, from a start word on."""

    target: int
    start: int
    words: Words


@dataclass(frozen=True)
class Get:
    """Words of the owner's memory from `start` on, for the own memory from `into` on."""

    owner: int
    start: int
    length: int
    into: int


@dataclass(frozen=True)
class Message:
    tag: Words
    words: Words


@dataclass(frozen=True)
class Send:
    target: int
    message: Message


Slot = tuple[Area, ...]  # an area for each process


@dataclass(frozen=True)
class View:
    """What a process may see in a superstep."""

    nprocs: int
    pid: int
    step: int
    args: Words
    memory: Words
    table: tuple[Slot, ...]  # oldest first
    tag_size: int
    queue: tuple[Message, ...]


@dataclass(frozen=True)
class Outcome:
    """What a turn leaves. A fault is told as in the report, as 'F2 9'."""

    fault: str | None
    syncs: bool
    memory: Words
    stores: list[tuple[int, int]]  # addresses and words, in order
    puts: list[Put]
    gets: list[Get]
    sends: list[Send]
    pops: list[int]
    pushes: list[Area]
    tag: int | None
    lines: list[Words]
    work: int


class Stop(Exception):
    """A call's fault, which ends the turn."""


class Abort(Exception):
    """The program's own abort, with its code."""


class Context:
    """The state of a turn: the calls of a program read and change it. Each acting call makes its checks in order; the first that fails is its fault."""

    def __init__(self, view: View):
        self.view = view
        self.memory = list(view.memory)
        self.stores: list[tuple[int, int]] = []
        self.left = list(view.queue)
        self.puts: list[Put] = []
        self.gets: list[Get] = []
        self.sends: list[Send] = []
        self.pops: list[int] = []
        self.pushes: list[Area] = []
        self.tag: int | None = None
        self.lines: list[Words] = []
        self.work = 0

    def load(self, address: int) -> int:
        """The own word. A program whose load finds no word aborts with code 1."""
        if address >= len(self.memory):
            raise Abort(1)
        return self.memory[address]

    def argument(self, index: int) -> int:
        """The own argument. A program that finds none aborts with code 2."""
        if index >= len(self.view.args):
            raise Abort(2)
        return self.view.args[index]

    def check(self, holds: bool, fault: str) -> None:
        if not holds:
            raise Stop(fault)

    def check_request(self) -> None:
        requests = (self.puts, self.gets, self.sends, self.pushes, self.pops)
        self.check(sum(len(issued) for issued in requests) < MOST_REQUESTS, "F8")

    def check_process(self, pid: int) -> None:
        self.check(pid < self.view.nprocs, f"F2 {pid}")

    def newest(self, start: int, popped: list[int]) -> int:
        """The newest slot whose own area has this start; F3 where there is none."""
        named = [slot for slot, areas in enumerate(self.view.table) if areas[self.view.pid].start == start and slot not in popped]
        self.check(bool(named), f"F3 {start}")
        return named[-1]

    def resolve(self, pid: int, area: int, offset: int, length: int) -> int:
        """The word of process `pid` at which a put or get starts."""
        target = self.view.table[self.newest(area, [])][pid]
        self.check(offset + length <= target.length, "F4")
        return target.start + offset

    def store(self, address: int, value: int) -> None:
        self.check(address < len(self.memory), "F5")
        self.memory[address] = value
        self.stores.append((address, value))

    def charge(self, amount: int) -> None:
        self.check(self.work + amount <= MOST_WORK, "F9")
        self.work += amount

    def put(self, pid: int, words: list[int], area: int, offset: int) -> None:
        self.check_request()
        self.check_process(pid)
        start = self.resolve(pid, area, offset, len(words))
        self.puts.append(Put(pid, start, tuple(words)))

    def get(self, pid: int, area: int, offset: int, into: int, length: int) -> None:
        self.check_request()
        self.check_process(pid)
        start = self.resolve(pid, area, offset, length)
        self.check(into + length <= len(self.memory), "F5")
        self.gets.append(Get(pid, start, length, into))

    def send(self, pid: int, tag: list[int], words: list[int]) -> None:
        self.check_request()
        self.check_process(pid)
        self.check(len(tag) == self.view.tag_size, "F6")
        self.check(len(words) <= MOST_PAYLOAD_WORDS, "F11")
        self.sends.append(Send(pid, Message(tuple(tag), tuple(words))))

    def move_into(self, room: int) -> Words:
        """Takes the first message, and answers the words that a buffer of so many words gets."""
        self.check(bool(self.left), "F7")
        return self.left.pop(0).words[:room]

    def push_reg(self, start: int, length: int) -> None:
        self.check_request()
        self.check(start + length <= len(self.memory), "F5")
        self.pushes.append(Area(start, length))

    def pop_reg(self, start: int) -> None:
        self.check_request()
        self.pops.append(self.newest(start, self.pops))

    def set_tagsize(self, size: int) -> None:
        self.check(size <= MOST_TAG_WORDS, "F12")
        self.tag = size

    def print(self, words: list[int]) -> None:
        self.check(len(self.lines) < MOST_LINES, "F10")
        self.check(len(words) <= MOST_LINE_WORDS, "F11")
        self.lines.append(tuple(words))


SYNC, HALT = True, False  # whether a turn ends by sync


class Program:
    """A step function, and the words of a view's memory on which its turn depends."""

    def step(self, ctx: Context) -> bool:
        raise NotImplementedError

    def looks(self, view: View, address: int) -> bool:
        raise NotImplementedError

    def check(self, made) -> None:
        """Fails where a whole run is not what the program is for, and that can be said without processes."""


def turn(program: Program, view: View) -> Outcome:
    """What a program's turn at a view leaves. A turn with a fault ends by halt."""
    context = Context(view)
    fault, syncs = None, HALT
    try:
        syncs = program.step(context)
    except Stop as stop:
        fault = str(stop)
    except Abort as abort:
        fault = f"F1 {abort}"
    c = context
    return Outcome(fault, syncs, tuple(c.memory), c.stores, c.puts, c.gets, c.sends, c.pops, c.pushes, c.tag, c.lines, c.work)
