"""A tool at the other end of two pipes."""

from __future__ import annotations

import os
import subprocess
import tempfile
from collections.abc import Sequence
from types import TracebackType

ENDS = (b"executed ", b"refused ", b"unread ", b"end\n")  # how the last line of an answer begins


class Pipe:
    """A tool that was started on a document with `--follow`, and whose answers are taken as they come."""

    def __init__(self, command: Sequence[str], document: bytes, *options: str):
        with tempfile.NamedTemporaryFile(suffix=".toml") as file:
            file.write(document)
            file.flush()
            words = [*command, "--follow", file.name, *options]
            pipes = {"stdin": subprocess.PIPE, "stdout": subprocess.PIPE, "stderr": subprocess.DEVNULL}
            self._process = subprocess.Popen(words, bufsize=0, **pipes)
            assert self._process.stdin and self._process.stdout
            self._in, self._out = self._process.stdin, self._process.stdout
            self.opening = self._hear((b"ready\n",))

    def _hear(self, ends: tuple[bytes, ...] = ENDS) -> bytes:
        heard = b""
        while not heard.endswith(b"\n") or not heard.startswith(ends, heard.rfind(b"\n", 0, -1) + 1):
            some = os.read(self._out.fileno(), 1 << 16)
            if not some:
                raise RuntimeError(f"the tool has ended behind {heard[-80:]!r}")
            heard += some
        return heard

    def ask(self, line: bytes) -> bytes:
        """The answer to a line."""
        self._in.write(line + b"\n")
        return self._hear()

    def __enter__(self) -> Pipe:
        return self

    def __exit__(
        self, kind: type[BaseException] | None, error: BaseException | None, trace: TracebackType | None
    ) -> None:
        self._in.close()
        self._process.kill()
        self._process.wait()
        self._out.close()
