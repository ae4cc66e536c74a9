"""The code and the texts on the pages about kernels in Python."""

from __future__ import annotations

import contextlib
import io
import os
import re
import shutil
import sys
import tempfile
import unittest

from stored import FAKE, ROOT, text_of

from fannulavo import KernelError, KernelFaulted
from fannulavo.__main__ import main
from fannulavo.kernels import running
from fannulavo.kernels.files import KernelFile

BLOCK = re.compile(r"^```(\w*)\n(.*?)^```", re.M | re.S)


def blocks_of(page: str) -> list[str]:
    return [block for _, block in BLOCK.findall(text_of(f"{ROOT}/{page}"))]


class Kernels(unittest.TestCase):
    """docs/kernels.md, with the tool that answers by the plain model in the place of the built one."""

    def setUp(self) -> None:
        self.folder = tempfile.mkdtemp(prefix="pages-")
        self.addCleanup(shutil.rmtree, self.folder)
        self.blocks = blocks_of("docs/kernels.md")
        self.write("ring.py", self.blocks[0])
        self.write("bsp_kernel", f'#!/bin/sh\nexec {sys.executable} -B {FAKE} bsp_kernel "$@"\n')
        os.chmod(f"{self.folder}/bsp_kernel", 0o755)
        built, path = running.BUILT, os.environ["PATH"]
        running.BUILT = running.BUILT.with_name("none")
        os.environ["PATH"] = f"{self.folder}:{path}"
        sys.path.insert(0, self.folder)
        self.addCleanup(sys.path.remove, self.folder)
        self.addCleanup(sys.modules.pop, "ring", None)
        self.addCleanup(setattr, running, "BUILT", built)
        self.addCleanup(os.environ.__setitem__, "PATH", path)

    def write(self, name: str, text: str) -> str:
        with open(f"{self.folder}/{name}", "w", encoding="utf-8") as file:
            file.write(text)
        return f"{self.folder}/{name}"

    def said(self, name: str) -> str:
        """What a file prints that is run."""
        out = io.StringIO()
        with contextlib.redirect_stdout(out):
            exec(compile(text_of(f"{self.folder}/{name}"), f"{self.folder}/{name}", "exec"), {"__name__": "__main__"})
        return out.getvalue()

    def test_the_first_report(self) -> None:
        self.assertEqual(self.said("ring.py"), self.blocks[1].partition("\n")[2])

    def test_an_edit(self) -> None:
        self.write("edit.py", self.blocks[2])
        self.assertEqual(self.said("edit.py"), self.blocks[3])

    def test_the_commands(self) -> None:
        words = re.findall(r"-m fannulavo (\w+) ring\.py", self.blocks[4])
        self.assertEqual(words, ["kernel", "check"])
        for word in words:
            with contextlib.redirect_stdout(io.StringIO()):
                self.assertEqual(main([word, f"{self.folder}/ring.py"]), 0)

    def test_a_refusal(self) -> None:
        text = f"{self.blocks[0].partition('    if p.step')[0]}    x = p.memory[0] / 2\n"
        with self.assertRaises(KernelError) as raised:
            KernelFile.read(self.write("ring.py", text))
        self.assertEqual(str(raised.exception).replace(f"{self.folder}/", "") + "\n", self.blocks[5])

    def test_a_fault(self) -> None:
        lines = ["from fannulavo import kernel", "", "", "@kernel", "def ring(p):", "    n = p.nprocs", "    x = 6 // p.memory[0]"]
        with self.assertRaises(KernelFaulted) as raised:
            KernelFile.read(self.write("ring.py", "\n".join(lines) + "\n")).program.simulate([[1], [0]])
        self.assertEqual(str(raised.exception).replace(f"{self.folder}/", "") + "\n", self.blocks[6])

    def test_the_readme(self) -> None:
        """The kernel of README.md; that its update takes so few turns is tried with the built tool."""
        text, rest = blocks_of("README.md")[0].split("\nrods = ")
        program = KernelFile.read(self.write("heat.py", f"{text}\n")).program
        self.assertEqual(program.simulate([[0, 9, 0], [0, 0, 0]], [2]).memories, {0: (0, 2, 2), 1: (4, 2, 0)})
        self.assertIn("with Session(heat", rest)
