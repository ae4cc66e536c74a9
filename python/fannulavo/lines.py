"""The lines of a text that a tool wrote."""

from __future__ import annotations

import json
import re
from collections.abc import Iterator
from typing import NamedTuple

from fannulavo.errors import MalformedReport

_KEY = re.compile(rb"[a-z]+ (0|[1-9][0-9]*)(?: |\Z)")
_DIGITS = b"0123456789 "


def _numbers(text: bytes) -> list[int]:
    """The numbers of a text, with a space between each two. `ValueError` where there is anything else.

    JSON's numbers have no leading zeros either, and Python reads no others as fast.
    """
    if text.translate(None, _DIGITS):
        raise ValueError("not digits and spaces alone")
    return json.loads(b"[%b]" % text.replace(b" ", b","))


class Line(NamedTuple):
    """A line: its number, from 1, and its text without the end. It is a view of the text in which it stands, which
    is not copied before it is read."""

    number: int
    view: memoryview

    @property
    def text(self) -> str:
        """The whole line."""
        return str(self.view, "utf-8", "replace")

    @property
    def rest(self) -> str:
        """What follows its first word."""
        return self.text.partition(" ")[2]

    def wrong(self, wanted: str) -> MalformedReport:
        """What is wrong with it."""
        return MalformedReport(self.number, self.text, wanted)

    def key(self) -> int:
        """The first of its numbers."""
        found = _KEY.match(self.view)
        if not found:
            raise self.wrong("a number without leading zeros")
        return int(found[1])

    def numbers(self, least: int) -> list[int]:
        """The numbers behind its first word: at least so many."""
        try:
            numbers = _numbers(bytes(self.view).partition(b" ")[2])
        except ValueError:
            raise self.wrong("numbers without leading zeros") from None
        if len(numbers) < least:
            raise self.wrong(f"{least} numbers or more")
        return numbers

    def only(self, count: int) -> list[int]:
        """The numbers behind its first word, which have to be so many."""
        numbers = self.numbers(count)
        if len(numbers) > count:
            raise self.wrong(f"{count} numbers")
        return numbers

    def match(self, pattern: re.Pattern[str], wanted: str) -> re.Match[str]:
        """What follows its first word."""
        found = pattern.fullmatch(self.rest)
        if not found:
            raise self.wrong(wanted)
        return found


class Lines:
    """The lines of a text between two places, of which the first that is left can be looked at."""

    __slots__ = ("_text", "_view", "_start", "_end", "_number")

    def __init__(self, text: bytes | bytearray, start: int, end: int, number: int):
        """`number` is that of the line that begins at `start`. A line ends at `end`, if there is one."""
        self._text, self._view = text, memoryview(text)
        self._start, self._end, self._number = start, end, number

    @classmethod
    def of(cls, text: bytes | bytearray) -> Lines:
        """All lines of a text. `MalformedReport` where the last one has no end."""
        end = text.rfind(b"\n") + 1
        if end < len(text):
            raise MalformedReport(text.count(b"\n") + 1, text[end:].decode(errors="replace"), "a line with its end")
        return cls(text, 0, end, 1)

    def is_over(self) -> bool:
        """Whether no line is left."""
        return self._start == self._end

    def wrong(self, wanted: str) -> MalformedReport:
        """What is wrong with the first line that is left, or with that there is none."""
        end = self._end if self.is_over() else self._text.index(b"\n", self._start)
        return self._first(end).wrong(wanted)

    def __iter__(self) -> Iterator[Line]:
        """The lines that are left, which they stay."""
        number, start = self._number, self._start
        while start < self._end:
            end = self._text.index(b"\n", start)
            yield Line(number, self._view[start:end])
            number, start = number + 1, end + 1

    def _first(self, end: int) -> Line:
        """The first line that is left, which ends there."""
        return Line(self._number, self._view[self._start : end])

    def _end_if(self, word: bytes) -> int:
        """The end of the first line that is left, if it begins with a word; else -1."""
        after = self._start + len(word)
        if not self._text.startswith(word, self._start, self._end) or self._text[after] not in b" \n":
            return -1
        return self._text.index(b"\n", after)

    def next_if(self, word: bytes) -> Line | None:
        """The first line that is left, if it begins with a word. It is looked at no more."""
        end = self._end_if(word)
        if end < 0:
            return None
        line = self._first(end)
        self._start, self._number = end + 1, self._number + 1
        return line

    def key_if(self, word: bytes) -> int | None:
        """The first number of the first line that is left, if it begins with a word. It stays."""
        end = self._end_if(word)
        return None if end < 0 else self._first(end).key()

    def next(self, word: bytes) -> Line:
        """The first line that is left, which has to begin with a word."""
        line = self.next_if(word)
        if line is None:
            raise self.wrong(f"a line '{word.decode()}'")
        return line

    def all_of(self, word: bytes) -> Iterator[Line]:
        """The following lines that begin with a word."""
        while (line := self.next_if(word)) is not None:
            yield line

    def part_of(self, word: bytes) -> Lines:
        """The following lines that begin with a word, as a part of their own. None of them is read."""
        start, number = self._start, self._number
        while (end := self._end_if(word)) >= 0:
            self._start, self._number = end + 1, self._number + 1
        return Lines(self._text, start, self._start, number)

    def all_as(self, pattern: re.Pattern[bytes], wanted: str) -> list[tuple[bytes, ...]]:
        """The groups of each line that is left: the pattern is that of a whole line with its end."""
        found = pattern.findall(self._text, self._start, self._end)
        if len(found) < self.count(b"\n"):
            raise next(line for line in self if not pattern.fullmatch(bytes(line.view) + b"\n")).wrong(wanted)
        return found

    def count(self, byte: bytes) -> int:
        """How often a byte stands in the lines that are left."""
        return self._text.count(byte, self._start, self._end)
