"""The input of a run: memories, arguments, the limit and the prices; and its text as a document."""

from __future__ import annotations

import tomllib
from collections.abc import Iterable
from dataclasses import dataclass, replace
from operator import index
from typing import Any

from fannulavo.edits import Argument, Edit, Limit, Prices, Word, batch_text
from fannulavo.errors import BadMemories, BadWord
from fannulavo.kernels import limits
from fannulavo.kernels.code import LARGEST

Words = tuple[int, ...]
MEMORIES = "write a list of words for each process, as memory=[[1, 2], [3, 4]]"
ARGUMENTS = "write args=[6] for all processes alike, or a list for each, as args=[[6], [7]]"


def _listed(given: Any, what: str, instead: str) -> list[Any]:
    """A list, of a list, a tuple, a range, or an array that can give one."""
    if given is None:
        raise BadMemories(f"{what} is not given: {instead}")
    if hasattr(given, "tolist"):
        given = given.tolist()
    if not isinstance(given, (list, tuple, range)):
        raise BadMemories(f"{what} is {type(given).__name__}: {instead}")
    return list(given)


def word_of(given: Any, where: str) -> int:
    """A number that a document can write. `BadWord` where it is none."""
    try:
        word = index(given)
    except TypeError:
        raise BadWord(f"{where} is {given!r}: write a whole number from 0 to 2**63 - 1") from None
    if 0 <= word <= LARGEST:
        return word
    why = "a document has no word from 2**63 on: let the kernel compute it" if word > 0 else "words have no sign"
    raise BadWord(f"{where} is {word}: write a whole number from 0 to 2**63 - 1 ({why})")


def _words(given: Any, what: str, instead: str) -> Words:
    return tuple(word_of(word, f"{what}, word {place},") for place, word in enumerate(_listed(given, what, instead)))


def memories_of(given: Any) -> tuple[Words, ...]:
    rows = _listed(given, "memory", MEMORIES)
    if not rows:
        raise BadMemories(f"there is no process: {MEMORIES}")
    return tuple(_words(row, f"memory {process}", MEMORIES) for process, row in enumerate(rows))


def arguments_of(given: Any, nprocs: int) -> tuple[Words, ...]:
    """The arguments of each process: lists for each, or words that all have."""
    if given is None:
        return ((),) * nprocs
    is_number = hasattr(given, "__index__") and not hasattr(given, "__len__")
    rows = [given] if is_number else _listed(given, "args", ARGUMENTS)
    if not any(isinstance(row, (list, tuple, range)) or getattr(row, "ndim", 0) for row in rows):
        return (_words(rows, "args", ARGUMENTS),) * nprocs
    if len(rows) != nprocs:
        raise BadMemories(f"args has {len(rows)} lists, and there are {nprocs} processes: {ARGUMENTS}")
    return tuple(_words(row, f"args of process {process}", ARGUMENTS) for process, row in enumerate(rows))


@dataclass(frozen=True)
class Input:
    """What a run is of, besides its kernel."""

    memory: tuple[Words, ...]
    args: tuple[Words, ...]
    limit: int = limits.MOST_SUPERSTEPS
    g: int = 1
    l: int = 1  # noqa: E741

    @classmethod
    def of(
        cls,
        memory: Any = None,
        args: Any = None,
        limit: Any = limits.MOST_SUPERSTEPS,
        g: Any = 1,
        l: Any = 1,  # noqa: E741
    ) -> Input:
        """The input of lists or arrays. `BadMemories` and `BadWord` where they are none."""
        memories = memories_of(memory)
        numbers = [word_of(number, name) for name, number in (("limit", limit), ("g", g), ("l", l))]
        return cls(memories, arguments_of(args, len(memories)), *numbers)

    @classmethod
    def read(cls, document: str) -> Input:
        """The input of a document."""
        keys = tomllib.loads(document)
        return cls.of(*(keys.get(name) for name in ("memory", "args", "limit", "g", "l")))

    def edited(self, edits: Iterable[Edit]) -> Input:
        """The input with edits, which are all accepted."""
        memory, args, rest = [list(row) for row in self.memory], [list(row) for row in self.args], self
        for edit in edits:
            match edit:
                case Word(process, offset, value):
                    memory[process][offset] = value
                case Argument(process, place, value):
                    args[process][place] = value
                case Limit(supersteps):
                    rest = replace(rest, limit=supersteps)
                case Prices(g, l):
                    rest = replace(rest, g=g, l=l)
        return replace(rest, memory=tuple(map(tuple, memory)), args=tuple(map(tuple, args)))

    def text(self, batches: Iterable[Iterable[Edit]] = ()) -> str:
        """The lines of a document."""

        def rows(words: tuple[Words, ...]) -> str:
            return "[" + ", ".join(f"[{', '.join(map(str, row))}]" for row in words) + "]"

        lines = [f"limit = {self.limit}", f"g = {self.g}", f"l = {self.l}"]
        lines += [f"memory = {rows(self.memory)}", f"args = {rows(self.args)}"]
        texts = [batch_text(batch) for batch in batches]
        lines += [f"batches = [{', '.join(texts)}]"] if texts else []
        return "".join(f"{line}\n" for line in lines)
