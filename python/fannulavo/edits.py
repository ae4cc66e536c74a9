"""The edits of an input. A batch of edits is any iterable of them."""

from __future__ import annotations

import json
from collections.abc import Iterable
from dataclasses import dataclass, fields
from operator import index
from typing import ClassVar

LARGEST = 2**63 - 1  # of the numbers that a document can write


@dataclass(frozen=True)
class _Edit:
    """An edit whose fields are the numbers that follow its name in a document."""

    _name: ClassVar[str]

    def __post_init__(self) -> None:
        for field in fields(self):
            number = index(getattr(self, field.name))
            if not 0 <= number <= LARGEST:
                raise ValueError(f"{type(self).__name__}: {field.name} is {number}, and not 0 to {LARGEST}")
            object.__setattr__(self, field.name, number)

    def _row(self) -> list[str | int]:
        return [self._name, *(getattr(self, field.name) for field in fields(self))]


@dataclass(frozen=True)
class Word(_Edit):
    """Word `offset` of the memory with which a process begins gets this value, 0 to 2^63 - 1.

    Refused where there is no such process (E1) or its memory has no such word (E2).
    """

    _name: ClassVar[str] = "word"
    process: int
    offset: int
    value: int


@dataclass(frozen=True)
class Argument(_Edit):
    """Argument `index` of a process gets this value, 0 to 2^63 - 1.

    Refused where there is no such process (E1) or it has no such argument (E3).
    """

    _name: ClassVar[str] = "arg"
    process: int
    index: int
    value: int


@dataclass(frozen=True)
class Limit(_Edit):
    """The run has at most so many supersteps. Refused where that is 0, or more than the tool takes (E4)."""

    _name: ClassVar[str] = "limit"
    supersteps: int


@dataclass(frozen=True)
class Prices(_Edit):
    """A word of an h-relation costs g, and a synchronisation l. Refused where one is more than the tool takes (E5)."""

    _name: ClassVar[str] = "prices"
    g: int
    l: int  # noqa: E741


Edit = Word | Argument | Limit | Prices


def batch_text(edits: Iterable[Edit]) -> str:
    """The batch as a document writes it, on one line."""
    rows = []
    for edit in edits:
        if not isinstance(edit, _Edit):
            raise TypeError(f"{edit!r} is no edit")
        rows.append(edit._row())
    return json.dumps(rows)
