"""What the pictures show is what the reports say."""

from __future__ import annotations

import importlib.util
import os
import subprocess
import sys
import tempfile
import unittest
from dataclasses import replace

from stored import HEAT, ROOT, fake, stored, text_of

from fannulavo import Cost, Limit, Place, Prices, Report, Session, Status, Word, read_report
from fannulavo.measures import (
    Bar,
    Cell,
    CostChange,
    Part,
    Step,
    Stretch,
    arrows,
    cost_bars,
    cost_changes,
    lines_changed,
    prices_of,
    reach_cells,
    step_costs,
    stretches,
    words_changed,
)
from model import job_of, TOOLS


def report_of(rows: list[tuple[int, int, int]], kind: str = "halted", **more: object) -> Report:
    costs = {superstep: Cost(*row) for superstep, row in enumerate(rows)}
    total = sum(row[2] for row in rows)
    return Report(0, Status(kind), {}, {0: (1,), 1: ()}, {0: (), 1: ()}, costs, total, **more)  # type: ignore[arg-type]


def step(superstep: int, process: int, is_delivery: bool) -> Step:
    return Step(Place(superstep, process), is_delivery)


def tool_of(path: str) -> str:
    """The tool of a stored report: its folder has its name, but for an example, which is of the tool of its own name or else of bsp_tool."""
    folder, name = os.path.basename(os.path.dirname(path)), os.path.basename(path).removesuffix(".txt")
    return folder if folder != "examples" else name if name in TOOLS else "bsp_tool"


class Bars(unittest.TestCase):
    def test_stored_reports(self) -> None:
        """The parts are those of the prices, and the bars as high as the costs."""
        for path, text, document in stored():
            tool = tool_of(path)
            given = job_of(TOOLS[tool], document.encode()).input
            first = read_report(text)[0]
            with self.subTest(path.removeprefix(ROOT)):
                assert isinstance(first, Report)
                bars = cost_bars(first, Prices(given.g, given.l))
                self.assertEqual([bar.cost for bar in bars], [cost.cost for cost in first.costs.values()])
                self.assertEqual([bar.work for bar in bars], [cost.work for cost in first.costs.values()])
                self.assertEqual(sum(bar.cost for bar in bars), first.total)
                found = prices_of(first)
                if found and any(cost.h for cost in first.costs.values()):
                    self.assertEqual(found, Prices(given.g, given.l))
                if found:
                    self.assertEqual(cost_bars(first), bars)

    def test_prices_out_of_the_rows(self) -> None:
        report = report_of([(1, 0, 11), (2, 3, 24), (5, 0, 5)])
        self.assertEqual(prices_of(report), Prices(4, 10))
        self.assertEqual(cost_bars(report), [Bar(0, 1, 0, 10), Bar(1, 2, 12, 10), Bar(2, 5, 0, 0)])

    def test_the_last_superstep_of_a_limited_run(self) -> None:
        report = report_of([(1, 0, 11), (2, 3, 24)], "limit")
        self.assertEqual(cost_bars(report), [Bar(0, 1, 0, 10), Bar(1, 2, 12, 10)])

    def test_prices_that_are_not_told(self) -> None:
        report = report_of([(1, 2, 19), (3, 2, 21), (4, 0, 4)])
        self.assertIsNone(prices_of(report))
        self.assertEqual(cost_bars(report), [Bar(0, 1, 18, 0), Bar(1, 3, 18, 0), Bar(2, 4, 0, 0)])
        self.assertEqual(cost_bars(report, Prices(4, 10))[0], Bar(0, 1, 8, 10))
        self.assertEqual(cost_bars(report_of([(7, 0, 7)])), [Bar(0, 7, 0, 0)])

    def test_rows_that_fit_no_prices(self) -> None:
        for rows in ([(0, 0, 1), (0, 1, 2), (0, 2, 4), (0, 0, 0)], [(0, 0, 5), (0, 1, 2), (0, 0, 0)]):
            self.assertRaises(ValueError, prices_of, report_of(rows))
        self.assertRaises(ValueError, cost_bars, report_of([(1, 0, 11), (5, 0, 5)]), Prices(1, 1))
        self.assertRaises(ValueError, cost_bars, replace(report_of([(5, 0, 5)]), is_whole=False))


class Cells(unittest.TestCase):
    def test_cells_are_the_places(self) -> None:
        with Session(fake("heat"), HEAT) as session:
            reports = [session.report, session.apply([Word(0, 1, 80)]), session.apply([Limit(3)]), session.apply([])]
        for report in reports:
            cells = reach_cells(report)
            self.assertEqual((len(cells), {len(row) for row in cells}), (3, {len(report.costs)}))
            for places, flag in ((report.executed, Cell.TURN), (report.redelivered, Cell.DELIVERY)):
                found = {
                    Place(at, process)
                    for process, row in enumerate(cells)
                    for at, cell in enumerate(row)
                    if cell & flag
                }
                self.assertEqual(found, set(places or ()))
            for row in cells:
                laid_out = [each.cell for each in stretches(row) for _ in range(each.count)]
                self.assertEqual(laid_out, row)
        self.assertEqual({cell for row in reach_cells(reports[0])[:] for cell in row[:-1]}, {Cell.BOTH})
        self.assertEqual({cell for row in reach_cells(reports[-1]) for cell in row}, {Cell.NOTHING})

    def test_stretches(self) -> None:
        row = [Cell.NOTHING, Cell.NOTHING, Cell.BOTH, Cell.TURN]
        self.assertEqual(
            stretches(row), [Stretch(0, 2, Cell.NOTHING), Stretch(2, 1, Cell.BOTH), Stretch(3, 1, Cell.TURN)]
        )

    def test_places_that_are_not_told(self) -> None:
        self.assertRaises(ValueError, reach_cells, report_of([(5, 0, 5)]))


class Traces(unittest.TestCase):
    def trace(self, report: Report, *wanted: tuple[tuple[int, int, bool] | None, tuple[int, int, bool], Part]) -> None:
        found = [(arrow.source, arrow.target, arrow.part) for arrow in arrows(report)]
        steps = [(source and step(*source), step(*target), part) for source, target, part in wanted]
        self.assertEqual(found, steps)

    def test_words_that_are_put(self) -> None:
        """The first words of an edit of heat: into the delivery, the turn, and the deliveries of the next superstep."""
        with Session(fake("heat"), HEAT, why=True) as session:
            report = session.apply([Word(0, 1, 80), Limit(2)])
        self.trace(
            report,
            ((0, 0, True), (1, 0, False), Part.WORDS),
            (None, (0, 0, True), Part.MEMORY),
            ((1, 0, False), (1, 0, True), Part.MEMORY),
            ((1, 0, False), (1, 1, True), Part.PUTS),
        )

    def test_other_parts(self) -> None:
        """A case that is worked by hand: an owner alone changes, and then an argument and a list of gets."""
        path = f"{ROOT}/cases/bsp_kernel/why_a_get_of_which_the_owner_alone_changes.txt"
        _, first, _, third = read_report(text_of(path))
        assert isinstance(first, Report) and isinstance(third, Report)
        self.trace(
            first,
            ((1, 1, True), (2, 1, False), Part.WORDS),
            (None, (0, 0, True), Part.MEMORY),
            ((0, 0, True), (1, 0, True), Part.MEMORY),
            ((0, 0, True), (1, 1, True), Part.READ),
        )
        self.trace(
            third,
            (None, (0, 1, False), Part.ARGS),
            (None, (1, 1, False), Part.ARGS),
            ((1, 1, True), (2, 1, False), Part.WORDS),
            (None, (2, 1, False), Part.ARGS),
            ((1, 1, False), (1, 1, True), Part.GETS),
        )

    def test_each_comes_from_a_step_that_was_made_anew(self) -> None:
        for path, text, _ in stored():
            for report in (each for each in read_report(text) if isinstance(each, Report) and each.causes):
                with self.subTest(path.removeprefix(ROOT), run=report.run):
                    steps = {step(*place, False) for place in report.executed or ()}
                    steps |= {step(*place, True) for place in report.redelivered or ()}
                    for arrow in arrows(report):
                        self.assertIn(arrow.target, steps)
                        self.assertIn(arrow.source, steps | {None})

    def test_costs(self) -> None:
        with Session(fake("heat"), HEAT, update_cost=True) as session:
            report = session.apply([Word(2, 1, 8)])
        self.assertEqual([each.run for each in step_costs(report)], [row.cost for row in report.costs.values()])
        self.assertEqual(sum(each.update for each in step_costs(report)), report.update_cost.total)
        self.assertTrue(all(each.update <= each.run for each in step_costs(report)))

    def test_what_is_not_told(self) -> None:
        for measure in (arrows, step_costs):
            self.assertRaises(ValueError, measure, report_of([(5, 0, 5)]))


class Changes(unittest.TestCase):
    def test_costs(self) -> None:
        before, after = report_of([(1, 0, 11), (2, 0, 2)]), report_of([(3, 0, 3)])
        changes = cost_changes(before, after)
        self.assertEqual(changes, [CostChange(0, 11, 3), CostChange(1, 2, None)])
        self.assertEqual(sum(each.difference for each in changes), after.total - before.total)

    def test_words_and_lines(self) -> None:
        before = replace(report_of([(5, 0, 5)]), memories={0: (1, 2, 3), 1: ()})
        after = replace(before, memories={0: (1, 9, 8), 1: ()}, lines={0: ((1,),), 1: ()})
        self.assertEqual(words_changed(before, after), [2, 0])
        self.assertEqual(lines_changed(before, after), [0])
        self.assertRaises(ValueError, words_changed, before, replace(after, memories={0: (1,)}))


class Command(unittest.TestCase):
    def run_it(self, *words: str, isolated: bool = False) -> subprocess.CompletedProcess[str]:
        environment = {**os.environ, "PYTHONPATH": f"{ROOT}/python"}
        flags = ["-B", *(["-S"] if isolated else [])]
        command = [sys.executable, *flags, "-m", "fannulavo", *words]
        return subprocess.run(command, env=environment, stdin=subprocess.DEVNULL, capture_output=True, text=True)

    def test_words_that_are_wrong(self) -> None:
        for words in ((), ("pictures",), ("paint", "a", "b")):
            done = self.run_it(*words)
            self.assertEqual((done.returncode, done.stdout), (2, ""))
            self.assertIn("usage:", done.stderr)

    @unittest.skipIf(importlib.util.find_spec("matplotlib"), "matplotlib is here")
    def test_without_matplotlib_it_says_so(self) -> None:
        with tempfile.TemporaryDirectory() as room:
            done = self.run_it("pictures", f"{ROOT}/examples/broadcast.txt", f"{room}/out.svg")
            self.assertEqual((done.returncode, os.listdir(room)), (1, []))
            self.assertIn("pictures want matplotlib", done.stderr)
