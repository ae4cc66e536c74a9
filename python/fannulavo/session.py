"""A session with a built tool."""

from __future__ import annotations

import os
import re
import tempfile
import weakref
from collections.abc import Callable, Iterable, Sequence
from operator import index
from pathlib import Path
from types import TracebackType
from typing import Any, TypeVar

from fannulavo.edits import Edit, batch_text
from fannulavo.errors import (
    BadMemories,
    Error,
    MalformedReport,
    NoSuchPlace,
    NothingToUndo,
    NotRead,
    Refused,
    SessionClosed,
    ToolEnded,
)
from fannulavo.kernels.inputs import MEMORIES, Input
from fannulavo.kernels.kernel import Kernel
from fannulavo.kernels.kernel import document as document_of
from fannulavo.kernels.running import check_faults, without_kernels, words_of
from fannulavo.places import Turn, View, turn_in, view_in
from fannulavo.reading import blocks_in, whole
from fannulavo.reports import Block, Refusal, Report, Unread
from fannulavo.tools import Tool, stop

Command = str | os.PathLike[str] | Sequence[str | os.PathLike[str]]
"""A program, or its words."""

# The last line of an answer, behind the end of the line before.
_READY = re.compile(rb"\nready\n")
_BLOCK = re.compile(rb"\n(?:executed|refused|unread) [^\n]*\n")
_TEXT = re.compile(rb"\nend\n|" + _BLOCK.pattern)

_BEFORE, _AFTER = b"document\n", b"end\n"  # the lines around a document
_NO_PLACE = b"unread place\n"  # in the place of a view or a turn
_UNREAD = {"undo": NothingToUndo, "place": NoSuchPlace}
T = TypeVar("T")


def _words(command: Command, path: str, options: Sequence[str]) -> list[str]:
    program = [command] if isinstance(command, (str, os.PathLike)) else command
    return [*(os.fspath(word) for word in program), "--follow", path, "--places", "--changes", *options]


def _options(workers: int, why: bool, update_cost: bool) -> list[str]:
    options = ["--workers", str(workers)]
    options += ["--why"] if why else []
    return options + (["--update-cost"] if update_cost else [])


def _fault_of(block: Refusal | Unread) -> Error:
    """What a block tells that has no report."""
    if isinstance(block, Refusal):
        return Refused(block.place, block.fault)
    return _UNREAD.get(block.reason, NotRead)(block.reason)


def _first_line(answer: bytearray) -> str:
    return answer.partition(b"\n")[0].decode(errors="replace")


class Session:
    """A tool that was started on a document with `--follow`, `--places` and `--changes`, and answers each batch of
    edits as it comes. Its reports are whole: the tool tells what changed, and the rest is that of the report before.

    It is a context manager, and has ended when its block is left. Whatever goes wrong in an exchange (`ToolEnded`,
    `Interrupted`, `MalformedReport`) ends the tool and the session. It is for one thread.
    """

    def __init__(
        self,
        command: Command | Kernel,
        document: str | os.PathLike[str] | bytes = b"",
        workers: int = 1,
        *,
        why: bool = False,
        update_cost: bool = False,
        tool: Command | None = None,
        may_fault: bool = False,
        **given: Any,
    ):
        """Starts a tool, and waits until it has run the document and its batches.

        `command` is a built tool, or the words with which it is started. `document` is the path of a document, or
        its text as bytes. Up to `workers` threads share the work. With `why` and `update_cost` the tool has
        these options too, and the reports have `causes` and `update_cost`. `ToolEnded` where the tool refuses the
        document, or its options; `OSError` where it can't be started.

        Or `command` is a kernel, `tool` that of kernels, the built one where none is given, and `given` has the input:
        `memory`, `args`, `limit`, `g` and `l`. Then a run that ends by a fault raises `KernelFaulted`: here it ends the
        session, later the edits stand. With `may_fault` it is a report like any other.
        """
        self._kernel = command if isinstance(command, Kernel) and not may_fault else None
        options = _options(workers, why, update_cost)
        if isinstance(command, Kernel):
            if document:
                raise BadMemories(f"the input of a kernel has names: {MEMORIES}")
            self._start_kernel(command, words_of(tool), Input.of(**given), options)
        elif given or tool is not None:
            raise TypeError("memory, args, limit, g, l and tool go with a kernel; a tool has a document")
        else:
            self._start(command, document, options)

    def _start_kernel(self, program: Kernel, tool: Command, given: Input, options: list[str]) -> None:
        try:
            self._start(tool, document_of(program, given).encode(), options)
        except ToolEnded as ended:
            raise without_kernels(ended) from None
        try:
            self._checked(self._report)
        except BaseException:
            self.close()
            raise

    def _checked(self, report: Report) -> Report:
        """The report; an exception where it tells of a fault of a kernel."""
        if self._kernel is not None and report.status.kind in ("faulted", "syncfault"):
            check_faults(self._kernel, Input.read(self.document()), report)
        return report

    def _start(self, command: Command, document: str | os.PathLike[str] | bytes, options: list[str]) -> None:
        if isinstance(document, bytes):
            with tempfile.NamedTemporaryFile(suffix=".toml") as file:
                file.write(document)
                file.flush()
                self._open(_words(command, file.name, options))
        else:
            self._open(_words(command, os.fspath(Path(document)), options))

    def _open(self, words: list[str]) -> None:
        self._tool = Tool(words)
        self._finalizer = weakref.finalize(self, stop, self._tool.process)
        self._blocks = self._tool.exchange("", _READY, self._opening_in)

    def _opening_in(self, answer: bytearray) -> tuple[Block, ...]:
        """The blocks of the document, of which the first alone is whole as it is written."""
        first, *batches = blocks_in(answer.removesuffix(b"ready\n")) or [None]
        if not isinstance(first, Report):
            raise MalformedReport(1, _first_line(answer), "a report")
        self._report = whole(first)
        return (self._report, *map(self._completed, batches))

    def _completed(self, block: Block) -> Block:
        """A block whose report, if it has one, is whole, and the last from then on."""
        if isinstance(block, Report):
            self._report = block = block.after(self._report)
        return block

    def _block_in(self, answer: bytearray) -> Block:
        block, *more = blocks_in(answer)
        if more:
            raise MalformedReport(1, _first_line(answer), "one block")
        return self._completed(block)

    def _document_in(self, answer: bytearray) -> str | Refusal | Unread:
        """A document, or the block that stands in its place where the tool says none."""
        if answer.startswith(_BEFORE):
            return answer[len(_BEFORE) : -len(_AFTER)].decode()
        block = self._block_in(answer)
        if isinstance(block, Report):
            raise MalformedReport(1, _first_line(answer), "the line 'document'")
        return block

    def _exchange(self, line: str, last: re.Pattern[bytes], read: Callable[[bytearray], T]) -> T:
        if self._tool.has_ended:
            raise SessionClosed("the session is over")
        return self._tool.exchange(f"{line}\n", last, read)

    def _ask(self, line: str) -> Report:
        block = self._exchange(line, _BLOCK, self._block_in)
        if not isinstance(block, Report):
            raise _fault_of(block)
        return self._checked(block)

    @property
    def opening(self) -> tuple[Block, ...]:
        """The blocks of the document: of its input, and of each of its own batches."""
        return self._blocks

    @property
    def report(self) -> Report:
        """The last report."""
        return self._report

    @property
    def is_open(self) -> bool:
        """Whether the session can be asked for more."""
        return not self._tool.has_ended

    def apply(self, edits: Iterable[Edit]) -> Report:
        """Makes a batch of edits, all or none. The report of the edited input, with the places that were made anew.

        `Refused` where the tool refuses one of them: then nothing has changed. `KernelFaulted` where a kernel's run
        ends by a fault: then the edits stand, and `undo` takes them back.
        """
        return self._ask(batch_text(edits))

    def undo(self) -> Report:
        """Takes the last accepted batch back that still stands, those of the document among them. `NothingToUndo`
        where there is none."""
        return self._ask("undo")

    def document(self) -> str:
        """The input as it is now, as the text of a document without batches, of which `Session` opens another session.
        Nothing changes. `NotRead` where the tool knows no line `document`."""
        said = self._exchange("document", _TEXT, self._document_in)
        if not isinstance(said, str):
            raise _fault_of(said)
        return said

    def _place(self, word: str, place: tuple[int, int], read: Callable[[bytearray, tuple[int, int]], T]) -> T:
        """What the tool answers to a word and a place."""

        def place_in(answer: bytearray) -> T | Refusal | Unread:
            if answer == _NO_PLACE:
                return Unread(self._report.run, "place")
            if not answer.startswith(b"run "):
                return read(answer, place)
            block = self._block_in(answer)
            if isinstance(block, Report):
                raise MalformedReport(1, _first_line(answer), f"the line '{word}'")
            return block

        said = self._exchange(f"{word} {place[0]} {place[1]}", _TEXT, place_in)
        if isinstance(said, (Refusal, Unread)):
            raise _fault_of(said)
        return said

    def view(self, superstep: int, process: int) -> View:
        """What a process saw in a superstep of the run of the input as it is now. Nothing changes.

        `NoSuchPlace` where the run has not opened that superstep, or has no such process. `NotRead` where the tool
        knows no line `view`.
        """
        return self._place("view", (index(superstep), index(process)), view_in)

    def turn(self, superstep: int, process: int) -> Turn:
        """What the turn of a process in a superstep of that run left. Nothing changes.

        `NoSuchPlace` where the run has no such turn. `NotRead` where the tool knows no line `turn`.
        """
        return self._place("turn", (index(superstep), index(process)), turn_in)

    def close(self) -> None:
        """Ends the session and its tool. `ToolEnded` where that ended with another status than 0. Closing once more
        does nothing."""
        self._tool.close()

    def __enter__(self) -> Session:
        return self

    def __exit__(
        self, kind: type[BaseException] | None, error: BaseException | None, trace: TracebackType | None
    ) -> None:
        if kind is None:
            self.close()
        elif not self._tool.has_ended:
            self._tool.ended("left by an exception")
