"""What a translation knows of the function that it is in."""

from __future__ import annotations

import ast
from collections.abc import Callable, Iterable, Iterator
from contextlib import contextmanager
from dataclasses import dataclass, field
from operator import index
from typing import Any

from fannulavo.errors import KernelError, NameNotSet, NotInKernels
from fannulavo.kernels.code import MODULUS, Code, Origin, Place
from fannulavo.kernels.source import Source

Names = frozenset[str]


def both(a: Names | None, b: Names | None) -> Names | None:
    """The names that are set where two ways meet. A way that nobody goes has none, and counts for nothing."""
    if a is None or b is None:
        return b if a is None else a
    return a & b


@dataclass
class Taken:
    """The message of a loop over messages: the registers of its length, its tag's length, and words of its tag."""

    length: int
    tag_length: int | None
    tag: dict[int, int]


@dataclass
class Loop:
    """A loop: where `break` and `continue` go on, and the names that are set at each `break`."""

    end: Place = field(default_factory=Place)
    next: Place = field(default_factory=Place)
    at_breaks: list[Names | None] = field(default_factory=list)


@dataclass
class Frame:
    """A function that is translated: the kernel, or a helper where it is called."""

    source: Source
    context: str | None
    registers: dict[str, int]
    set_names: Names | None
    """The names that are set on every way to here; None where no way leads here."""
    result: int | None = None
    is_kernel: bool = False
    is_used: bool = False
    """Whether the word of a helper is used."""
    returns: int = 0
    """How many ways lead back to the caller by `return`."""
    messages: dict[str, Taken] = field(default_factory=dict)
    loops: list[Loop] = field(default_factory=list)
    end: Place = field(default_factory=Place)


class Framed:
    """The code so far, and the functions that the translation is in."""

    def __init__(self, source: Source, numbers: Iterable[int] = ()):
        """`numbers` are those that have registers of their own from the beginning."""
        self.code = Code(source, source.definition)
        for number in numbers:
            self.code.kept(number)
        self.frames: list[Frame] = []
        self.depth = 0  # of loops
        self.helpers: dict[Callable[..., Any], Source] = {}
        self.first = Origin(source, source.first, {})

    @property
    def frame(self) -> Frame:
        return self.frames[-1]

    def refusal(self, node: ast.AST, why: str, instead: str, kind: type[KernelError] = NotInKernels) -> KernelError:
        return self.frame.source.refusal(kind, node, why, instead)

    def at(self, node: ast.AST) -> None:
        """The instructions that follow come from this part of the text."""
        self.code.source, self.code.node = self.frame.source, node

    def add(self, name: str, *operands: int | Place) -> None:
        line = getattr(self.code.node, "lineno", self.first.line)
        self.code.add(Origin(self.code.source, line, self.frame.registers), name, *operands)

    @contextmanager
    def released(self) -> Iterator[None]:
        """Registers that are taken inside are given back at the end."""
        free = self.code.free
        yield
        self.code.free = free

    def number(self, word: int, into: int | None = None) -> int:
        """A register with a number. In a loop it is one that is set before everything else."""
        if into is None and (word == 0 or self.depth or word in self.code.numbers):
            return self.code.kept(word)
        if word == 0:
            self.add("copy", into, self.code.kept(0))  # type: ignore[arg-type]
            return into  # type: ignore[return-value]
        register = self.code.fresh() if into is None else into
        for name, *operands in self.code.set_number(word, register):
            self.add(name, *operands)  # type: ignore[arg-type]
        return register

    def is_context(self, node: ast.AST) -> bool:
        return isinstance(node, ast.Name) and node.id == self.frame.context

    def of_context(self, node: ast.AST) -> str | None:
        """The name of a member of the context."""
        return node.attr if isinstance(node, ast.Attribute) and self.is_context(node.value) else None

    def local(self, node: ast.Name) -> int | None:
        """The register of a local; None where the name is none."""
        frame = self.frame
        if node.id not in frame.registers:
            return None
        if frame.set_names is not None and node.id not in frame.set_names:
            why = f"{node.id} is not set on every way that leads here"
            raise self.refusal(node, why, f"set {node.id} above, before the branch or the loop", NameNotSet)
        return frame.registers[node.id]

    def surrounding(self, node: ast.Name) -> object:
        try:
            return self.frame.source.surrounding(node.id)
        except KeyError:
            why = f"{node.id} is not set"
            raise self.refusal(node, why, "set it in the kernel, or above the kernel in its file", NameNotSet) from None

    def surrounding_number(self, node: ast.Name) -> int:
        """A name of the surroundings that stands for a number."""
        value = self.surrounding(node)
        try:
            word = index(value)  # type: ignore[arg-type]
        except TypeError:
            kind = type(value).__name__
            instead = "hand it in by p.args or p.memory; of its surroundings a kernel uses whole numbers and helpers"
            raise self.refusal(node, f"{node.id} is no number: {kind}", instead) from None
        if not 0 <= word < MODULUS:
            raise self.refusal(node, f"{node.id} is {word}", "write a number from 0 to 2**64 - 1")
        return word

    def has_set(self, name: ast.Name) -> None:
        frame = self.frame
        if name.id in frame.messages:
            raise self.refusal(name, f"{name.id} is a message", "set a name of its own")
        if frame.set_names is not None:
            frame.set_names |= {name.id}
