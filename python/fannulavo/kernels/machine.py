"""The machine of docs/machine.md: instructions that are followed on a simulated context, and the words at which a turn
looks."""

from __future__ import annotations

from collections.abc import Callable, Sequence

from fannulavo.kernels.code import MODULUS, REGISTERS, Instruction
from fannulavo.kernels.context import Context, Seen, TurnEnded, end_by, word_at

BUDGET = 10_000_000  # of a turn, where a document does not say
LOOKING_BUDGET = 4_000
MASK = MODULUS - 1


def _quotient(a: int, b: int) -> int:
    return a // b if b else end_by("F1 5")


def _rest(a: int, b: int) -> int:
    return a % b if b else end_by("F1 5")


OPERATORS: dict[str, Callable[[int, int], int]] = {
    "add": lambda a, b: a + b & MASK,
    "sub": lambda a, b: a - b & MASK,
    "mul": lambda a, b: a * b & MASK,
    "div": _quotient,
    "rem": _rest,
    "and": lambda a, b: a & b,
    "or": lambda a, b: a | b,
    "xor": lambda a, b: a ^ b,
    "shl": lambda a, b: a << b & MASK if b < 64 else 0,
    "shr": lambda a, b: a >> b if b < 64 else 0,
    "eq": lambda a, b: int(a == b),
    "ne": lambda a, b: int(a != b),
    "lt": lambda a, b: int(a < b),
    "le": lambda a, b: int(a <= b),
}
SOURCES = (
    "nprocs", "pid", "step", "memory_len", "tag_size", "messages_left", "words_left", "first_len", "first_tag_len",
)  # fmt: skip
BLOCKS = {"put_block": (1, 2), "send_block": (3, 4), "print_block": (0, 1)}
"""The operands that are the start and the length of a block of own words."""


class Machine:
    """The registers of a turn, on a context. `place` is that of the next instruction, `last` of the one before."""

    def __init__(self, code: Sequence[Instruction], constants: Sequence[int], seen: Seen):
        self.code, self.constants = code, constants
        self.context = Context(seen)
        self.registers = [0] * REGISTERS
        self.taken: Sequence[int] = ()
        self.place = self.last = 0
        self.followed = 0

    def follow(self, budget: int) -> TurnEnded:
        """Follows the code to the end of the turn, and answers how it ended."""
        try:
            while self.place < len(self.code):
                if self.followed == budget:
                    end_by("F1 6")
                self.followed += 1
                name, *operands = self.code[self.place]
                self.last = self.place
                self.place += 1
                self.step(name, operands)  # type: ignore[arg-type]
        except TurnEnded as ended:
            return ended
        return TurnEnded("sync")

    def step(self, name: str, x: list[int]) -> None:
        """Follows an instruction."""
        r = self.registers
        if name in OPERATORS:
            r[x[0]] = OPERATORS[name](r[x[1]], r[x[2]])
        elif name in ("load", "load_at"):
            r[x[0]] = self.context.memory[sum(r[each] for each in x[1:]) & MASK]  # type: ignore[assignment]
        elif name == "store":
            self.context.memory[r[x[0]]] = r[x[1]]
        elif name == "number":
            r[x[0]] = x[1]
        elif name == "copy":
            r[x[0]] = r[x[1]]
        elif name in ("jump", "unless", "unless_lt"):
            self.jump(name, x)
        elif len(x) == 2 and name in ("constant", "first_tag", "taken", "argument"):
            r[x[0]] = word_at(self.indexed(name), r[x[1]], 2 if name == "argument" else 1)
        elif name in SOURCES:
            r[x[0]] = self.source(name)
        else:
            self.act(name, x)

    def jump(self, name: str, x: list[int]) -> None:
        r = self.registers
        if name == "jump" or (name == "unless" and r[x[0]] == 0) or (name == "unless_lt" and r[x[0]] >= r[x[1]]):
            self.place = x[-1]

    def indexed(self, name: str) -> Sequence[int]:
        left = self.context.left
        if name == "first_tag":
            return left[0].tag if left else ()
        return {"constant": self.constants, "taken": self.taken, "argument": self.context.seen.args}[name]

    def source(self, name: str) -> int:
        left = self.context.left
        if name == "memory_len":
            return len(self.context.memory)
        if name == "first_len":
            return len(left[0].payload) if left else 0
        if name == "first_tag_len":
            return len(left[0].tag) if left else 0
        return getattr(self.context, name)  # type: ignore[no-any-return]

    def row(self, first: int, count: int) -> list[int]:
        return self.registers[first : first + count]

    def block(self, name: str, start: int, length: int) -> list[int]:
        words = self.constants if name.endswith("constants") else self.context.memory.words
        if start + length > len(words):
            end_by("F1 1")
        return list(words[start : start + length])

    def words(self, name: str, first: int, second: int) -> list[int]:
        """The words of a call: in registers, or in a block."""
        if name in ("put", "send", "print"):
            return self.row(first, second)
        return self.block(name, self.registers[first], self.registers[second])

    def act(self, name: str, x: list[int]) -> None:
        """Makes a call, or ends the turn."""
        r, context = self.registers, self.context
        if name.startswith("put"):
            context.put(r[x[0]], self.words(name, x[1], x[2]), r[x[3]], r[x[4]])
        elif name.startswith("send"):
            context.send(r[x[0]], self.row(x[1], x[2]), self.words(name, x[3], x[4]))
        elif name.startswith("print"):
            context.print(*self.words(name, x[0], x[1]))
        elif name == "set_tagsize":
            r[x[0]] = context.set_tagsize(r[x[1]])
        elif name == "take":
            self.take(x[0])
        elif name == "store_taken":
            for place, word in enumerate(self.taken[: r[x[1]]]):
                context.memory[r[x[0]] + place] = word
        else:
            getattr(context, name)(*(r[each] for each in x))

    def take(self, register: int) -> None:
        if not self.context.left:
            end_by("F7")
        self.taken = self.context.left.pop(0).payload
        self.registers[register] = len(self.taken)


class Everywhere(Exception):
    """A turn may look at any word."""


class Looks(Machine):
    """The machine without the words of the memory. It knows which registers depend on none of them."""

    def __init__(self, code: Sequence[Instruction], constants: Sequence[int], seen: Seen):
        super().__init__(code, constants, seen)
        self.known = [True] * REGISTERS
        self.blocks: list[tuple[int, int]] = []

    def addresses(self) -> list[int]:
        """The addresses at which the turn looks."""
        count = len(self.context.memory)
        try:
            ended = self.follow(LOOKING_BUDGET)
        except Everywhere:
            return list(range(count))
        if ended.fault == "F1 6" and self.followed == LOOKING_BUDGET and self.place < len(self.code):
            return list(range(count))
        blocks = [range(start, min(start + length, count)) for start, length in self.blocks]
        return sorted(set().union(*blocks))

    def needs(self, *registers: int) -> None:
        if not all(self.known[each] for each in registers):
            raise Everywhere

    def learn(self, register: int, used: list[int], name: str, x: list[int]) -> None:
        """A register becomes what an instruction makes of registers; unknown where one of them is."""
        if not all(self.known[each] for each in used):
            self.known[register] = False
            return
        try:
            super().step(name, x)
            self.known[register] = True
        except TurnEnded:  # the turn ends there; the machine looks on, as if the word were not known
            self.known[register] = False

    def step(self, name: str, x: list[int]) -> None:
        r = self.registers
        if name in ("load", "load_at"):
            self.needs(*x[1:])
            self.blocks.append((sum(r[each] for each in x[1:]) & MASK, 1))
            self.known[x[0]] = False
        elif name in BLOCKS:
            start, length = (x[place] for place in BLOCKS[name])
            self.needs(start, length)
            self.blocks.append((r[start], r[length]))
        elif name in OPERATORS or name == "copy":
            self.learn(x[0], x[1:], name, x)
        elif len(x) == 2 and name in ("constant", "first_tag", "taken", "argument"):
            self.learn(x[0], x[1:], name, x)
        elif name in ("number", "set_tagsize", "take", *SOURCES):
            self.set_known(name, x)
        elif name in ("jump", "unless", "unless_lt"):
            self.needs(*x[:-1])
            self.jump(name, x)
        elif name in ("sync", "halt", "abort"):
            raise TurnEnded("sync")

    def set_known(self, name: str, x: list[int]) -> None:
        if name == "set_tagsize":
            self.registers[x[0]] = self.context.tag_size
        elif name == "take":
            self.taken = self.context.left.pop(0).payload if self.context.left else ()
            self.registers[x[0]] = len(self.taken)
        else:
            super().step(name, x)
        self.known[x[0]] = name != "words_left"
