"""Sessions with tools that fail."""

from __future__ import annotations

import contextlib
import gc
import os
import signal
import sys
import threading
import time
import unittest
from collections.abc import Iterator
from unittest.mock import patch

from stored import FAKE, HEAT, fake

from fannulavo import (
    Interrupted,
    MalformedReport,
    NotRead,
    Report,
    Session,
    SessionClosed,
    ToolEnded,
    Word,
    read_report,
    write_report,
)
from model import answer

EDIT = [Word(0, 1, 5)]


class Failing(unittest.TestCase):
    def setUp(self) -> None:
        # Where the tests run in the background of a shell, interrupts are ignored.
        before = signal.signal(signal.SIGINT, signal.default_int_handler)
        self.addCleanup(signal.signal, signal.SIGINT, before)
        self.started: list[int] = []
        real = sys.modules["fannulavo.tools"].subprocess.Popen

        def popen(*words: object, **more: object) -> object:
            process = real(*words, **more)
            self.started.append(process.pid)
            return process

        patcher = patch("fannulavo.tools.subprocess.Popen", popen)
        patcher.start()
        self.addCleanup(patcher.stop)

    def tearDown(self) -> None:
        self.assertTrue(self.started)
        for pid in self.started:
            self.assertRaises(ProcessLookupError, os.kill, pid, 0)

    def fails(self, kind: type, *flaw: str) -> BaseException:
        """What goes wrong with the second batch."""
        with Session(fake("heat", *flaw), HEAT) as session:
            session.apply(EDIT)
            with self.assertRaises(kind) as raised:
                session.apply(EDIT)
            self.assertRaises(SessionClosed, session.apply, EDIT)
        return raised.exception

    def test_killed_in_the_middle(self) -> None:
        error = self.fails(ToolEnded, "dies")
        self.assertEqual(error.status, -signal.SIGKILL)
        self.assertEqual(error.said, "run 2\nstatus halted\n")

    def test_ended_in_the_middle(self) -> None:
        error = self.fails(ToolEnded, "exits")
        self.assertEqual((error.status, error.errors), (1, "fault memory\n"))
        self.assertIn("fault memory", str(error))

    def test_what_is_no_block(self) -> None:
        error = self.fails(MalformedReport, "garbles")
        self.assertEqual((error.line, error.text), (2, "status unheard"))

    def test_killed_from_outside(self) -> None:
        with Session(fake("heat"), HEAT) as session:
            os.kill(self.started[-1], signal.SIGKILL)
            with self.assertRaises(ToolEnded) as raised:
                session.apply(EDIT)
            self.assertEqual(raised.exception.status, -signal.SIGKILL)

    def says_and_ends(self, said: str) -> list[str]:
        """A tool that says more than was asked for once its document is run, and ends."""
        first = answer("heat", HEAT, places=True).report
        return [sys.executable, "-c", f"print({first + 'ready' + chr(10) + said!r}, end='', flush=True)"]

    def test_what_was_said_before_a_broken_pipe(self) -> None:
        with Session(self.says_and_ends("run 1\nsta"), HEAT) as session:
            session._tool.process.wait()
            with self.assertRaises(ToolEnded) as raised:
                session.apply(EDIT)
        self.assertEqual((raised.exception.said, raised.exception.status), ("run 1\nsta", 0))
        self.assertIn("takes nothing more", str(raised.exception))

    def test_killed_before_the_document(self) -> None:
        with Session(fake("heat"), HEAT) as session:
            os.kill(self.started[-1], signal.SIGKILL)
            self.assertRaises(ToolEnded, session.document)

    @contextlib.contextmanager
    def interrupt(self, session: Session, said: bytes) -> Iterator[None]:
        """Interrupts as soon as the tool has said so much of its answer, and half a second later at the earliest."""

        def wait_and_kill() -> None:
            for _ in range(3000):
                time.sleep(0.01)
                if session._tool._said[1:] == said:
                    break
            time.sleep(0.5)
            os.kill(os.getpid(), signal.SIGINT)

        thread = threading.Thread(target=wait_and_kill)
        thread.start()
        yield
        thread.join()

    def test_an_interrupt(self) -> None:
        for flaw in ("hangs", "deaf"):
            with self.subTest(flaw), patch("fannulavo.tools._GRACE", 0.2), Session(fake("heat", flaw), HEAT) as session:
                with self.assertRaises(Interrupted) as raised, self.interrupt(session, b"run 1\n"):
                    session.apply(EDIT)
                self.assertEqual(raised.exception.said, "run 1\n")
                self.assertRaises(SessionClosed, session.undo)

    def test_an_interrupt_in_the_middle_of_a_line(self) -> None:
        first = answer("heat", HEAT, places=True).report
        script = f"import time; print({first!r}, end=''); print('ready', flush=True); input(); "
        script += "print('run 1\\nstatus hal', end='', flush=True); time.sleep(60)"
        with Session([sys.executable, "-c", script], HEAT) as session:
            with self.assertRaises(Interrupted) as raised, self.interrupt(session, b"run 1\nstatus hal"):
                session.apply(EDIT)
            self.assertEqual(raised.exception.said, "run 1\nstatus hal")

    def test_an_interrupt_while_nothing_is_taken(self) -> None:
        first = answer("heat", HEAT, places=True).report
        script = f"import time; print({first!r}, end=''); print('ready', flush=True); time.sleep(60)"
        text = "[" * 1_000_000  # more than a pipe holds
        with Session([sys.executable, "-c", script], HEAT) as session, patch(
            "fannulavo.session.batch_text", lambda _: text
        ):
            with self.assertRaises(Interrupted), self.interrupt(session, b""):
                session.apply(EDIT)

    def test_an_interrupt_leaves_the_with_block(self) -> None:
        with self.assertRaises(KeyboardInterrupt), Session(fake("heat", "hangs"), HEAT) as session:
            with self.interrupt(session, b"run 1\n"):
                session.apply(EDIT)

    def test_a_tool_without_documents(self) -> None:
        first = answer("heat", HEAT, places=True).report
        script = f"print({first!r}, end=''); print('ready', flush=True); input(); print('run 1'); print('unread J1')"
        with Session([sys.executable, "-c", script], HEAT) as session:
            self.assertRaises(NotRead, session.document)

    def test_two_blocks_in_one_answer(self) -> None:
        first = answer("heat", HEAT, places=True).report
        two = answer("heat", HEAT, scratch=True).report + "run 1\nunread J1\n"
        script = f"print({first!r}, end=''); print('ready', flush=True); input(); print({two!r})"
        with Session([sys.executable, "-c", script], HEAT) as session:
            self.assertRaises(MalformedReport, session.apply, EDIT)

    def scripted(self, *answers: str) -> Session:
        """A session with a tool that says these answers, whatever it is asked."""
        first = answer("heat", HEAT, places=True).report
        script = f"print({first!r}, end=''); print('ready', flush=True)\n"
        script += "".join(f"input(); print({text!r}, end='', flush=True)\n" for text in answers)
        return Session([sys.executable, "-c", f"{script}input()"], HEAT)

    def test_words_are_read_where_they_are_asked_for(self) -> None:
        with self.scripted("run 1\nstatus halted\nmemory 1 0 x\ntotal 0\nexecuted 0 redelivered 0\n") as session:
            report = session.apply(EDIT)
            self.assertEqual((list(report.memories), report.total), ([0, 1, 2], 0))
            self.assertIs(report.memories[0], session.opening[0].memories[0])
            for _ in range(2):
                with self.assertRaises(MalformedReport) as raised:
                    report.memories[1]
                self.assertEqual((raised.exception.line, raised.exception.text), (3, "memory 1 0 x"))
            self.assertTrue(session.is_open)
            session._tool.process.kill()
            self.assertRaises(ToolEnded, session.close)

    def test_more_than_a_block(self) -> None:
        with self.scripted("run 1\nunread J1\nrun", " 2\nunread J1\n", "run 3\nunread J1\n") as session:
            self.assertRaises(NotRead, session.undo)
            self.assertRaises(NotRead, session.undo)
            self.assertRaises(NotRead, session.undo)
            session._tool.process.kill()
            self.assertRaises(ToolEnded, session.close)
        with self.scripted("run 1\nunread J1\nrun 2\n", "run 2\nunread J1\n") as session:
            self.assertRaises(NotRead, session.undo)
            self.assertRaises(MalformedReport, session.undo)

    def test_an_interrupt_while_an_answer_is_read(self) -> None:
        """What was lost of it would be missing in each later report."""
        with Session(fake("heat"), HEAT) as session:
            with patch("fannulavo.session.blocks_in", side_effect=KeyboardInterrupt):
                self.assertRaises(Interrupted, session.apply, EDIT)
            self.assertRaises(SessionClosed, session.undo)

    def test_an_exception_leaves_the_with_block(self) -> None:
        with self.assertRaises(LookupError), Session(fake("heat"), HEAT):
            raise LookupError

    def test_a_session_that_is_dropped(self) -> None:
        session = Session(fake("heat"), HEAT)
        session.apply(EDIT)
        del session
        gc.collect()

    def test_a_bad_end(self) -> None:
        session = Session(fake("heat", "ends_badly"), HEAT)
        with self.assertRaises(ToolEnded) as raised:
            session.close()
        self.assertEqual(raised.exception.status, 1)

    def test_no_end(self) -> None:
        session = Session(fake("heat", "stays"), HEAT)
        with patch("fannulavo.tools._LAST", 0.2), self.assertRaises(ToolEnded) as raised:
            session.close()
        self.assertEqual(raised.exception.status, -signal.SIGTERM)

    def starts_not(self, command: list[str], document: bytes = HEAT) -> ToolEnded:
        with self.assertRaises(ToolEnded) as raised:
            Session(command, document)
        return raised.exception

    def test_a_document_that_is_refused(self) -> None:
        error = self.starts_not(fake("heat"), b"limit = 1\n")
        self.assertEqual((error.status, error.errors, error.said), (3, "fault J2\n", ""))

    def test_a_document_that_is_not_there(self) -> None:
        with self.assertRaises(ToolEnded) as raised:
            Session(fake("heat"), "/nowhere/at all")
        self.assertEqual(raised.exception.errors.splitlines()[0], "fault read")

    def test_a_program_that_is_no_tool(self) -> None:
        self.assertEqual(self.starts_not(["true"]).status, 0)
        self.assertIn("option", self.starts_not(["cat"]).errors)
        self.starts_not([sys.executable, "-c", "print('run 0')"])

    def test_a_tool_that_says_nothing_of_a_run(self) -> None:
        with self.assertRaises(MalformedReport):
            Session([sys.executable, "-c", "print('ready', flush=True); input()"], HEAT)
        with self.assertRaises(MalformedReport):
            Session(["sh", "-c", "echo hello; echo ready; read line"], HEAT)

    def test_errors_do_not_fill_a_pipe(self) -> None:
        script = "import sys; sys.stderr.write('x' * 300000 + '\\n'); sys.stderr.flush(); sys.exit(4)"
        error = self.starts_not([sys.executable, "-c", script])
        self.assertEqual((error.status, len(error.errors)), (4, 300001))


class NotStarted(unittest.TestCase):
    def test_no_such_program(self) -> None:
        self.assertRaises(FileNotFoundError, Session, "/nowhere/at all", HEAT)

    def test_one_word(self) -> None:
        with Session(["env", sys.executable, "-B", FAKE, "heat"], HEAT) as session:
            self.assertIsInstance(session.report, Report)
            self.assertEqual(read_report(write_report([session.report])), [session.report])
