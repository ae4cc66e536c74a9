"""Kernels in Python with the built tool, and native kernels beside them: a part of what ci/sessions runs."""

from __future__ import annotations

import contextlib
import io
import subprocess
import tempfile

import test_gallery
from built import program_of
from gallery import NAMES, NATIVE, file_of
from test_kernel_pages import blocks_of

from fannulavo import Session, ToolWithoutKernels
from fannulavo.kernels.checking import compare_runs


class BuiltGallery(test_gallery.Gallery):
    """What test_gallery tries, with the programs of crates/bsp_kernel and of the native kernels."""

    @classmethod
    def setUpClass(cls) -> None:
        cls.programs = {crate: program_of(crate) for crate in ("bsp_kernel", *sorted({tool for tool, _, _ in NATIVE.values()}))}
        cls.tool = [cls.programs["bsp_kernel"]]

    def native(self, tool: str, text: bytes) -> str:
        words = [self.programs[tool], "--places", "--why", "--update-cost"]
        return subprocess.run(words, input=text, capture_output=True, check=True).stdout.decode()

    def test_drawn_inputs(self) -> None:
        """Whole runs by the function, by its instructions and by the tool."""
        for name in NAMES:
            with self.subTest(kernel=name):
                self.assertEqual(compare_runs(file_of(name).program, file_of(name).inputs(6, 1), self.tool), 7)

    def test_the_readme(self) -> None:
        """What the readme says of its update."""
        text, out = blocks_of("README.md")[0], io.StringIO()
        with tempfile.NamedTemporaryFile("w", suffix=".py") as file:
            file.write(text)
            file.flush()
            with contextlib.redirect_stdout(out):
                exec(compile(text, file.name, "exec"), {"__name__": "__main__"})
        self.assertIn(f"# {out.getvalue().strip()}", text)

    def test_a_tool_without_kernels(self) -> None:
        self.assertRaises(ToolWithoutKernels, Session, file_of("heat").program, memory=[[1]], tool=self.programs["heat"])
