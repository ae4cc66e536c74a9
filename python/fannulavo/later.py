"""Values that are read out of a text when they are first asked for."""

from __future__ import annotations

from collections.abc import Callable, Iterator, Mapping, Sequence
from functools import partial
from typing import Any, Generic, TypeVar, overload

T = TypeVar("T")


class Later(Generic[T]):
    """A value that is read when it is first asked for. The text that it stood in is let go then."""

    __slots__ = ("_read", "_value")

    def __init__(self, read: Callable[..., T], *given: object):
        self._read: Callable[[], T] | None = partial(read, *given)

    @property
    def value(self) -> T:
        """The value, or the fault with which it is read each time."""
        if self._read is not None:
            self._value = self._read()
            self._read = None
        return self._value


class Rows(Mapping[int, T]):
    """Rows by their numbers, each of which may be read later. They are equal to a dict of them."""

    __slots__ = ("_rows",)

    def __init__(self, rows: Mapping[int, T | Later[T]]):
        self._rows = rows

    def __getitem__(self, number: int) -> T:
        row = self._rows[number]
        return row.value if isinstance(row, Later) else row

    def __contains__(self, number: object) -> bool:
        return number in self._rows

    def __iter__(self) -> Iterator[int]:
        return iter(self._rows)

    def __len__(self) -> int:
        return len(self._rows)

    def __repr__(self) -> str:
        return repr(dict(self))

    def __reduce__(self) -> tuple[Any, ...]:
        return Rows, (dict(self),)


def unread(rows: Mapping[int, T]) -> Mapping[int, T | Later[T]]:
    """The rows as they are kept, read or not."""
    return rows._rows if isinstance(rows, Rows) else rows


class LaterTuple(Sequence[T]):
    """So many values, which are read later. It is equal to a tuple of them."""

    __slots__ = ("_count", "_values")

    def __init__(self, count: int, values: Later[tuple[T, ...]]):
        self._count, self._values = count, values

    def __len__(self) -> int:
        return self._count

    @overload
    def __getitem__(self, index: int) -> T: ...
    @overload
    def __getitem__(self, index: slice) -> tuple[T, ...]: ...
    def __getitem__(self, index: int | slice) -> T | tuple[T, ...]:
        return self._values.value[index]

    def __iter__(self) -> Iterator[T]:
        return iter(self._values.value)

    def __eq__(self, other: object) -> bool:
        if not isinstance(other, (LaterTuple, tuple)):
            return NotImplemented
        return len(self) == len(other) and tuple(self) == tuple(other)

    def __hash__(self) -> int:
        return hash(self._values.value)

    def __repr__(self) -> str:
        return repr(self._values.value)

    def __reduce__(self) -> tuple[Any, ...]:
        return tuple, (self._values.value,)
