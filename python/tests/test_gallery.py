"""The kernels of python/examples/kernels three ways: plain Python, the simulation and a tool; and beside native kernels."""

from __future__ import annotations

import random
import re
import unittest

from gallery import FOLDER, NAMES, NATIVE, both_documents, edited, expected, file_of, printed, taken_again, told, told_rows
from stored import ROOT, fake, text_of

from fannulavo import Input, Report, document, read_report, write_report
from fannulavo.kernels.checking import compare_runs, compare_views
from model import answer

# The parts of a report in which a kernel differs from its native form, and why.
DIFFERENCES = {
    "list_ranking": {"causes"},  # it looks at the word that it has just stored as the rank's successor
    "odd_even_sort": {"executed", "causes", "update_cost"},  # its sort branches on words, so it looks at all words
    "sample_sort": {"memories", "executed", "redelivered", "causes"},  # likewise; the words that come lie in the memory
}
PARTS = ("status", "faults", "memories", "lines", "costs", "total", "executed", "redelivered", "causes", "update_cost")


class Gallery(unittest.TestCase):
    """What is compared with any tool."""

    tool = fake("bsp_kernel")

    def native(self, tool: str, text: bytes) -> str:
        return answer(tool, text, places=True, why=True, update_cost=True).report

    def test_an_edit(self) -> None:
        """The tool before and after the edit, the simulation of the edited input, and the row of the page."""
        for name in NAMES:
            with self.subTest(kernel=name):
                program, given = file_of(name).program, Input.of(**file_of(name).names["example"])
                opened, report, after = edited(name, self.tool)
                self.assertEqual(after, given.edited(file_of(name).names["edits"]))
                for made, of in ((opened, given), (report, after)):
                    simulated = program.simulate(of)
                    self.assertEqual((printed(made), made.total), (printed(simulated), simulated.total))
                    self.assertEqual(dict(made.memories), simulated.memories)
                self.assertEqual(report.executed, tuple(taken_again(program, given, after)))
                self.assertEqual(told_rows()[name], told(name, opened, report))

    def test_native_forms(self) -> None:
        """Reports of whole documents, updates included, block by block."""
        for name, (tool, _, _) in NATIVE.items():
            native, own = both_documents(name)
            blocks = read_report(self.native(tool, native)), read_report(self.native("bsp_kernel", own))
            self.assertEqual(len(blocks[0]), len(blocks[1]))
            found: set[str] = set()
            for one, other in zip(*blocks):
                assert isinstance(one, Report) and isinstance(other, Report)
                found |= {part for part in PARTS if getattr(one, part) != getattr(other, part)}
            with self.subTest(kernel=name):
                self.assertEqual(found, DIFFERENCES.get(name, set()))


class Simulated(unittest.TestCase):
    """What is compared without a tool."""

    def test_files(self) -> None:
        for name in NAMES:
            lines = text_of(f"{FOLDER}/{name}.py").splitlines()
            self.assertLessEqual(len(lines), 60, name)
            self.assertLessEqual(max(map(len, lines)), 130, name)
            self.assertTrue(lines[0].startswith('"""'), name)
        self.assertEqual(len(NAMES), 16)
        self.assertEqual(sorted(told_rows()), NAMES)

    def test_plain_python(self) -> None:
        """Random inputs: the words that are printed, and the report of the simulation beside that of the plain model."""
        rng = random.Random(84)
        for name in NAMES:
            file = file_of(name)
            for place in range(20):
                given = file.names["drawn"](rng)
                with self.subTest(kernel=name, given=given):
                    report = file.program.simulate(**given)
                    self.assertEqual(printed(report), expected(name, given))
                    if place < 4:
                        text = document(file.program, **given).encode()
                        self.assertEqual(write_report([report]), answer("bsp_kernel", text, scratch=True).report)

    def test_instructions(self) -> None:
        for name in NAMES:
            file = file_of(name)
            with self.subTest(kernel=name):
                compare_views(file.program, file.inputs(3), 60)
                self.assertEqual(compare_runs(file.program, file.inputs(4), None, False), 5)

    def test_the_native_kernels_have_a_form(self) -> None:
        """Each of the programs whose results docs/programs.md tells has its form in Python."""
        told = re.findall(r"The theorem on its runs is `\w+` in `crates/(\w+)/specs/(\w+)", text_of(f"{ROOT}/docs/programs.md"))
        self.assertEqual(len(told), len(NATIVE))
        self.assertLessEqual(set(NATIVE), set(NAMES))
        self.assertLessEqual(set(DIFFERENCES), set(NATIVE))
