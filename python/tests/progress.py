"""What long work shows on standard error: what ci/progress runs."""

from __future__ import annotations

import contextlib
import json
import os
import pty
import re
import subprocess
import tempfile
import time
import unittest

from cases import ROOT, built_program

BLOCK_ENDS = re.compile(rb"\nexecuted \d+ redelivered \d+\n$")
PROCESSES = 8


def long_work() -> bytes:
    """A document whose runs take about a second from scratch."""
    memory = ", ".join("[" + ", ".join(["9"] * 4096) + "]" for _ in range(64))
    args = ", ".join(["[1000]"] * 64)
    batches = ", ".join(f'[["word", 3, 5, {value}]]' for value in range(3))
    return f'program = "heat"\nlimit = 1024\ng = 1\nl = 1\nmemory = [{memory}]\nargs = [{args}]\nbatches = [{batches}]\n'.encode()


class Progress(unittest.TestCase):
    """What long work shows on standard error."""

    @classmethod
    def setUpClass(cls) -> None:
        program = built_program("heat")
        if program is None:
            raise RuntimeError("heat was not built")
        cls.program = program
        cls.document = long_work()

    def shown(self, *words: str) -> bytes:
        """What stands on a terminal, which standard error is, of a run from scratch."""
        return self.shown_of([self.program, "--scratch", *words], self.document)

    def shown_of(self, words: list[str], document: bytes) -> bytes:
        ours, theirs = pty.openpty()
        try:
            ended = subprocess.run(words, input=document, stdout=subprocess.PIPE, stderr=theirs, check=True)
        finally:
            os.close(theirs)
        self.assertTrue(ended.stdout.startswith(b"run 0\n"))
        try:
            return os.read(ours, 1 << 16)
        except OSError:  # nothing was written
            return b""
        finally:
            os.close(ours)

    def test_a_terminal(self) -> None:
        shown = self.shown()
        self.assertRegex(shown, rb"^(\rrun [0-3], superstep [0-9]+\x1b\[K)+\r\x1b\[K$")
        self.assertIn(b"run 3,", shown)

    def test_the_batches_of_a_document(self) -> None:
        """A session tells each batch as a run of its number."""
        program = built_program("bsp_kernel")
        self.assertIsNotNone(program)
        batches = [[["word", p, 0, 7 + run] for p in range(PROCESSES)] for run in (1, 2)]
        shown = self.shown_of([program], live_work() + f"batches = {json.dumps(batches)}\n".encode())
        self.assertRegex(shown, rb"^(\rrun 0, superstep [0-9]+\x1b\[K)+(\rrun 1, superstep [0-9]+\x1b\[K)+(\rrun 2, superstep [0-9]+\x1b\[K)+\r\x1b\[K$")

    def test_quiet(self) -> None:
        self.assertEqual(self.shown("--quiet"), b"")

    def test_no_terminal(self) -> None:
        ended = subprocess.run([self.program, "--scratch"], input=self.document, capture_output=True, check=True)
        self.assertEqual(ended.stderr, b"")


def live_work() -> bytes:
    """A document whose runs take about a second, since each process goes round a loop often, and whose record is small."""
    with open(f"{ROOT}/bench/one_heavy.toml", encoding="utf-8") as file:
        kernel = file.read().partition("memory = ")[0]
    return f"{kernel}memory = {[[p] for p in range(PROCESSES)]}\nargs = {[[60_000, 200]] * PROCESSES}\n".encode()


class LiveProgress(unittest.TestCase):
    """What a live session shows on a terminal, which standard error is."""

    def setUp(self) -> None:
        program = built_program("bsp_kernel")
        if program is None:
            raise RuntimeError("bsp_kernel was not built")
        room = tempfile.TemporaryDirectory()
        self.addCleanup(room.cleanup)
        with open(f"{room.name}/work.toml", "wb") as file:
            file.write(live_work())
        self.ours, theirs = pty.openpty()
        os.set_blocking(self.ours, False)
        self.addCleanup(os.close, self.ours)
        words = [program, "--follow", f"{room.name}/work.toml"]
        self.session = subprocess.Popen(words, stdin=subprocess.PIPE, stdout=subprocess.PIPE, stderr=theirs, bufsize=0)
        os.close(theirs)
        self.addCleanup(self.end)

    def end(self) -> None:
        self.session.kill()
        self.session.wait()
        self.session.stdin.close()
        self.session.stdout.close()

    def shown(self) -> bytes:
        """What was written to the terminal since it was looked at last."""
        shown = b""
        with contextlib.suppress(OSError):  # nothing more was written
            while True:
                shown += os.read(self.ours, 1 << 16)
        return shown

    def answered(self, pattern: re.Pattern[bytes]) -> bytes:
        """Waits for an answer, and gives what stood on the terminal when its first bytes came."""
        answer = os.read(self.session.stdout.fileno(), 1 << 16)
        shown = self.shown()
        while not pattern.search(answer):
            more = os.read(self.session.stdout.fileno(), 1 << 16)
            self.assertTrue(more, "the session has ended")
            answer += more
        return shown

    def say(self, *edits: list[object]) -> None:
        self.session.stdin.write(f"{json.dumps(edits)}\n".encode())

    def is_told(self, shown: bytes, run: int) -> None:
        """Finds that the supersteps of this run are told, and that the line is taken away."""
        self.assertRegex(shown, rb"^(\rrun %d, superstep [0-9]+\x1b\[K)+\r\x1b\[K$" % run)
        steps = [int(step) for step in re.findall(rb"superstep (\d+)", shown)]
        self.assertEqual(steps, sorted(set(steps)))
        self.assertTrue(0 < steps[-1] <= 200)

    def test_the_line_is_taken_away_before_an_answer(self) -> None:
        self.is_told(self.answered(re.compile(rb"\nready\n$")), 0)
        for run in (1, 2):
            self.say(*(["word", p, 0, 7 + run] for p in range(PROCESSES)))
            self.is_told(self.answered(BLOCK_ENDS), run)
        # The time between two answers is not that of work.
        time.sleep(0.7)
        self.say(["limit", 3])
        self.assertEqual(self.answered(BLOCK_ENDS), b"")
