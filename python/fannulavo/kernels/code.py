"""Instructions in the making: registers, places and numbers."""

from __future__ import annotations

import ast
from collections.abc import Mapping
from dataclasses import dataclass, field

from fannulavo.errors import CodeTooLong, TooManyRegisters
from fannulavo.kernels.source import Source

REGISTERS = 256
MODULUS = 2**64  # of words
SMALL = 2**32  # numbers below it stand in an instruction
LARGEST = 2**63 - 1  # of the numbers that a document can write
MOST_INSTRUCTIONS = 100_000

Instruction = tuple[str | int, ...]
"""The name of an instruction and its operands, as in a document."""


class Place:
    """A place of the code, which is known once it is marked."""

    __slots__ = ("at",)

    def __init__(self) -> None:
        self.at: int | None = None


@dataclass(frozen=True)
class Origin:
    """Where an instruction comes from: a line of a function, and the registers that its locals have."""

    source: Source
    line: int
    registers: Mapping[str, int]


@dataclass
class Code:
    """The instructions so far. Registers are taken from 0 on, and given back in the opposite order. A number that is
    used in a loop has a register of its own from the end on, which is set before everything else."""

    source: Source
    node: ast.AST
    rows: list[list[object]] = field(default_factory=list)
    origins: list[Origin] = field(default_factory=list)
    free: int = 0
    constants: list[int] = field(default_factory=list)
    numbers: dict[int, int] = field(default_factory=dict)
    _here: list[Place] = field(default_factory=list)

    def add(self, origin: Origin, name: str, *operands: int | Place) -> None:
        """Adds an instruction."""
        if len(self.rows) >= MOST_INSTRUCTIONS:
            why = f"the kernel has more than {MOST_INSTRUCTIONS} instructions"
            raise self.source.refusal(CodeTooLong, self.node, why, "call fewer helpers, or call them in a loop")
        self.rows.append([name, *operands])
        self.origins.append(origin)
        self._here = []

    def mark(self, place: Place) -> None:
        """The place is here. A jump to it that stands right before falls away."""
        if self.rows and self.rows[-1] == ["jump", place]:
            self.rows.pop()
            self.origins.pop()
        self._here.append(place)
        for each in self._here:
            each.at = len(self.rows)

    def fresh(self, count: int = 1) -> int:
        """The first of so many registers in a row that nothing uses."""
        self.free += count
        self._check_room()
        return self.free - count

    def _check_room(self) -> None:
        if self.free + len(self.numbers) > REGISTERS:
            why = f"the kernel needs more than {REGISTERS} registers"
            instead = "keep words in p.memory, or compute them anew"
            raise self.source.refusal(TooManyRegisters, self.node, why, instead)

    def kept(self, word: int) -> int:
        """The register that has this word in every instruction."""
        if word not in self.numbers:
            self.numbers[word] = REGISTERS - 1 - len(self.numbers)
            self._check_room()
        return self.numbers[word]

    def set_number(self, word: int, register: int) -> list[list[object]]:
        """The instructions that set a register to a word."""
        if word == 0:
            return []
        if word < SMALL:
            return [["number", register, word]]
        if word <= LARGEST:
            if word not in self.constants:
                self.constants.append(word)
            index = self.set_number(self.constants.index(word), register) or [["number", register, 0]]
            return [*index, ["constant", register, register]]
        zero, one = self.kept(0), self.kept(1)
        below = self.set_number(MODULUS - 1 - word, register) or [["number", register, 0]]
        return [*below, ["sub", register, zero, register], ["sub", register, register, one]]

    def finished(self, first: Origin) -> tuple[tuple[Instruction, ...], tuple[Origin, ...]]:
        """The whole code, with a number for each place."""
        begin: list[list[object]] = []
        for word in list(self.numbers):
            begin += self.set_number(word, self.numbers[word])
        if any(word > LARGEST for word in self.numbers):  # these use the register of 1
            begin = [*self.set_number(1, self.kept(1)), *(row for row in begin if row[1:2] != [self.kept(1)])]
        for row in self.rows:
            row[1:] = [len(begin) + each.at if isinstance(each, Place) else each for each in row[1:]]  # type: ignore
        return tuple(map(tuple, [*begin, *self.rows])), (*[first] * len(begin), *self.origins)  # type: ignore
