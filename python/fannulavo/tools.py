"""A tool that runs as a process of its own, between two pipes."""

from __future__ import annotations

import os
import re
import subprocess
import tempfile
from collections.abc import Callable, Sequence
from typing import TypeVar

from fannulavo.errors import Interrupted, ToolEnded

T = TypeVar("T")

_GRACE = 2.0  # seconds that a tool has to end itself when it is told to
_LAST = 10.0  # seconds that it has to end after the end of its input
_CHUNK = 1 << 16  # bytes that are read at once


def _text(said: bytes | bytearray) -> str:
    return said.decode("utf-8", "replace")


def _kill(process: subprocess.Popen[bytes]) -> None:
    """Ends a process, if it has not ended. After this it is gone."""
    try:
        if process.poll() is None:
            process.terminate()
            process.wait(_GRACE)
    except subprocess.TimeoutExpired:
        pass
    finally:
        if process.poll() is None:
            process.kill()
        process.wait()


def stop(process: subprocess.Popen[bytes]) -> None:
    """Ends a process, if it has not ended, and closes its pipes."""
    try:
        _kill(process)
    finally:
        for pipe in (process.stdin, process.stdout):
            _close(pipe)


def _close(pipe: object) -> None:
    try:
        pipe.close()  # type: ignore[attr-defined]
    except OSError:
        pass  # what was not yet written can't be


class Tool:
    """A tool that was started. Whatever goes wrong in an exchange with it ends it."""

    def __init__(self, words: Sequence[str]):
        self._errors = tempfile.TemporaryFile()
        self._said = bytearray(b"\n")  # behind the end of a line, what the tool said and was not taken yet
        # In a process group of its own an interrupt from a terminal does not reach it.
        # Its input is not buffered: else closing it could wait for a tool that takes nothing.
        try:
            self.process: subprocess.Popen[bytes] = subprocess.Popen(
                words,
                bufsize=0,
                process_group=0,
                stdin=subprocess.PIPE,
                stdout=subprocess.PIPE,
                stderr=self._errors,
            )
        except BaseException:
            self._errors.close()
            raise
        assert self.process.stdin and self.process.stdout
        self._in, self._out = self.process.stdin, self.process.stdout

    @property
    def has_ended(self) -> bool:
        """Whether the tool was ended, and what it said was read."""
        return self._errors.closed

    def exchange(self, line: str, last: re.Pattern[bytes], read: Callable[[bytearray], T]) -> T:
        """Writes a line, or none where it is empty, waits for the answer, and reads it. `last` is what its last line
        is, with the end of the line before."""
        try:
            self._write(line)
            return read(self._answer(last))
        except KeyboardInterrupt:
            raise Interrupted(*self._end()) from None
        except BaseException:
            if not self.has_ended:
                self._end()
            raise

    def _write(self, line: str) -> None:
        left = memoryview(line.encode())
        try:
            while left:
                left = left[self._in.write(left) :]
        except OSError as error:
            raise self.ended("the tool takes nothing more") from error

    def _answer(self, last: re.Pattern[bytes]) -> bytearray:
        begun = 0  # where a last line can begin that was not seen yet
        while not (found := last.search(self._said, begun)):
            begun = self._said.rfind(b"\n")
            some = os.read(self._out.fileno(), _CHUNK)
            if not some:
                raise self.ended("the tool has ended")
            self._said += some
        answer, self._said = self._said, self._said[found.end() - 1 :]
        del answer[found.end() :], answer[:1]
        return answer

    def _read_on(self) -> None:
        """Reads what the tool wrote and nobody waits for. It waits for no more."""
        try:
            os.set_blocking(self._out.fileno(), False)
            while some := os.read(self._out.fileno(), _CHUNK):
                self._said += some
        except (OSError, ValueError):
            pass  # no more has come yet, or the pipe is closed

    def ended(self, what: str) -> ToolEnded:
        """Ends the tool, and tells what it said."""
        return ToolEnded(what, *self._end(wait=_GRACE))

    def _end(self, wait: float = 0.0) -> tuple[str, str, int | None]:
        """Ends the input of the tool, and then the tool, which has so many seconds to end itself. What it said that
        was not taken, what on standard error, and its exit status."""
        _close(self._in)
        try:
            if wait:
                self.process.wait(wait)
        except subprocess.TimeoutExpired:
            pass
        finally:
            try:
                _kill(self.process)
                self._read_on()
            finally:
                stop(self.process)
        self._errors.seek(0)
        errors = _text(self._errors.read())
        self._errors.close()
        return _text(self._said[1:]), errors, self.process.returncode

    def close(self) -> None:
        """Ends the input of the tool, and waits until it has ended. `ToolEnded` where that was not with status 0."""
        if self.has_ended:
            return
        try:
            said, errors, status = self._end(wait=_LAST)
        except KeyboardInterrupt:
            raise Interrupted(*self._end()) from None
        if status:
            raise ToolEnded("the tool ended wrongly", said, errors, status)
