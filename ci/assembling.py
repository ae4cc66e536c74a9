"""Kernels that are written with names of registers and of places."""
from __future__ import annotations

import json

ZERO = 255  # a register that no instruction sets
SMALL = 2**32  # numbers below it stand in an instruction


class Assembly:
    """The code and the constants of a kernel. A register is named by a text, or by its number. A place is named by a text, and marked by `mark`."""

    def __init__(self):
        self.code: list[list] = []
        self.constants: list[int] = []
        self.registers: dict[str, int] = {}
        self.places: dict[str, int] = {}
        self.fresh = 0

    def register(self, name) -> int:
        if isinstance(name, int):
            return name
        if name not in self.registers:
            self.registers[name] = len(self.registers)
            assert len(self.registers) < ZERO, "there are too many registers"
        return self.registers[name]

    def add(self, name: str, *operands) -> None:
        """Adds an instruction. An operand is a register, or a place in a list of its own."""
        self.code.append([name, *(each if isinstance(each, list) else self.register(each) for each in operands)])

    def number(self, register, word: int) -> None:
        """Sets a register to a word."""
        if word < SMALL:
            self.code.append(["number", self.register(register), word])
            return
        self.number(register, self.constant(word))
        self.add("constant", register, register)

    def constant(self, *words: int) -> int:
        """The index at which these words stand one after the other among the constants."""
        count = len(words)
        for start in range(len(self.constants) - count + 1):
            if self.constants[start : start + count] == list(words):
                return start
        self.constants += words
        return len(self.constants) - count

    def new_place(self) -> str:
        self.fresh += 1
        return f"place {self.fresh}"

    def mark(self, place: str) -> None:
        self.places[place] = len(self.code)

    def instructions(self) -> list[list]:
        """The instructions, with a number for each place."""
        return [[self.places[each[0]] if isinstance(each, list) else each for each in instruction] for instruction in self.code]

    def text(self) -> str:
        """The lines of a document: an instruction a line."""
        rows = "".join(f"  {json.dumps(each)},\n" for each in self.instructions())
        constants = f"constants = {json.dumps(self.constants)}\n" if self.constants else ""
        return f"kernel = [\n{rows}]\n{constants}"
