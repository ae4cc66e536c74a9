"""Sessions with a built tool: a part of what ci/sessions runs."""

from __future__ import annotations

import os
import signal
import subprocess

import test_sessions
from stored import HEAT

from cases import built_program
from fannulavo import Session, SessionClosed, ToolEnded, Word


def program_of(crate: str) -> str:
    program = built_program(crate)
    if program is None:
        raise RuntimeError(f"{crate} was not built")
    return program


class Built(test_sessions.Batches):
    """What test_sessions tries, with the program of crates/heat."""

    @classmethod
    def setUpClass(cls) -> None:
        cls.program = program_of("heat")

    names = ("heat",)

    def tool(self, name: str = "heat") -> list[str]:
        return [self.program]

    def whole(self, document: bytes) -> str:
        ended = subprocess.run([self.program, "--places"], input=document, capture_output=True, check=True)
        return ended.stdout.decode()

    def test_a_tool_that_is_killed(self) -> None:
        with Session(self.tool(), HEAT, 3) as session:
            session.apply([Word(0, 1, 5)])
            pid = session._tool.process.pid
            os.kill(pid, signal.SIGKILL)
            with self.assertRaises(ToolEnded) as raised:
                session.apply([Word(0, 1, 6)])
            self.assertEqual(raised.exception.status, -signal.SIGKILL)
            self.assertRaises(SessionClosed, session.undo)
        self.assertRaises(ProcessLookupError, os.kill, pid, 0)

    def test_a_document_that_is_refused(self) -> None:
        with self.assertRaises(ToolEnded) as raised:
            Session(self.tool(), b"limit = 1\n")
        self.assertEqual((raised.exception.status, raised.exception.errors.splitlines()[0]), (3, "fault J2"))
