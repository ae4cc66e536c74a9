"""Reports are read, and written back equal."""

from __future__ import annotations

import copy
import os
import pickle
import unittest
from dataclasses import replace

from stored import ROOT, stored

from drawn import drawn_document
from fake_tool import Live
from fannulavo import (
    Causes,
    Cost,
    DeliveryCauses,
    MalformedReport,
    Place,
    Refusal,
    Report,
    Status,
    TurnCauses,
    Unread,
    UpdateCost,
    read_report,
    write_report,
)
from model import answer

LEAST = 230  # of the reports that are stored
BLOCK = """run 0
status faulted 1
fault 0 F1 7
fault 1 F12
memory 0 1 2
memory 1
print 0
print 0 5 6
cost 0 3 2 15
cost 1 4 0 4
total 19
turns 0 0 1
turns 1 0 1
deliveries 0 0
executed 4 redelivered 1
"""
WHY = """why turn 0 0 new
why turn 0 1 args queue table tagsize word 0 3
why turn 1 0 word 2
why turn 1 1 tagsize
why delivery 0 0 memory read 0 1 puts 1 sends 0 1
"""
COST = """update 0 3 0 13
update 1 4 0 4
update total 17
"""
ALL = BLOCK.replace("executed", f"{WHY}{COST}executed")


def jobs(tool: str, count: int) -> list[bytes]:
    """Drawn documents that are jobs."""
    documents = (drawn_document(tool, seed) for seed in range(10 * count))
    found = [document for document in documents if answer(tool, document, scratch=True).status == 0]
    return found[:count]


class Stored(unittest.TestCase):
    def test_each_is_written_back_equal(self) -> None:
        reports = stored()
        self.assertGreaterEqual(len(reports), LEAST)
        for path, text, _ in reports:
            with self.subTest(path.removeprefix(ROOT)):
                blocks = read_report(text)
                self.assertEqual(write_report(blocks), text)
                whole = [block.is_whole for block in blocks if isinstance(block, Report)]
                is_of_changes = os.path.basename(path).startswith("changes_")
                self.assertEqual(whole, [not is_of_changes or number == 0 for number in range(len(whole))])


class Drawn(unittest.TestCase):
    def test_from_scratch_and_with_places(self) -> None:
        for tool in ("bsp_tool", "heat", "collectives", "bsp_kernel"):
            for document in jobs(tool, 10):
                told = {"why": True, "update_cost": True}
                for options in ({"scratch": True}, {"places": True}, told, {"update_cost": True}):
                    text = answer(tool, document, **options).report
                    self.assertEqual(write_report(read_report(text)), text)

    def changes(self, tool: str, document: bytes, *words: str) -> str:
        live = Live(tool, document, list(words))
        blocks = [live.run_again(), *map(live.batch, live.batches)]
        return "".join(f"{line}\n" for block in blocks for line in block)

    def test_changes_complete_the_report_before(self) -> None:
        for tool in ("bsp_tool", "heat", "collectives", "bsp_kernel"):
            for document in jobs(tool, 15):
                whole = read_report(answer(tool, document, places=True).report)
                text = self.changes(tool, document, "--places", "--changes")
                blocks = read_report(text, changes=True)
                self.assertEqual(write_report(blocks), text)
                self.assertEqual(write_report(read_report(text)), text)
                before = None
                for block, wanted in zip(blocks, whole, strict=True):
                    if isinstance(block, Report):
                        before = block.after(before) if before else block
                        self.assertEqual(before, wanted)
                    else:
                        self.assertEqual(block, wanted)


class Blocks(unittest.TestCase):
    def test_all_of_a_report(self) -> None:
        wanted = Report(
            run=0,
            status=Status("faulted", 1),
            faults={0: "F1 7", 1: "F12"},
            memories={0: (1, 2), 1: ()},
            lines={0: ((), (5, 6)), 1: ()},
            costs={0: Cost(3, 2, 15), 1: Cost(4, 0, 4)},
            total=19,
            executed_count=4,
            redelivered_count=1,
            executed=(Place(0, 0), Place(0, 1), Place(1, 0), Place(1, 1)),
            redelivered=(Place(0, 0),),
        )
        self.assertEqual(read_report(BLOCK), [wanted])
        self.assertEqual(write_report([wanted]), BLOCK)

    def test_causes_and_costs(self) -> None:
        (report,) = read_report(ALL)
        turns = {
            Place(0, 0): TurnCauses(is_new=True),
            Place(0, 1): TurnCauses(args=True, queue=True, table=True, tag_size=True, words=(0, 3)),
            Place(1, 0): TurnCauses(words=(2,)),
            Place(1, 1): TurnCauses(tag_size=True),
        }
        deliveries = {Place(0, 0): DeliveryCauses(memory=True, read=(0, 1), puts=(1,), sends=(0, 1))}
        self.assertEqual(report.causes, Causes.of(turns, deliveries))
        self.assertEqual(report.update_cost, UpdateCost({0: Cost(3, 0, 13), 1: Cost(4, 0, 4)}, 17))
        self.assertEqual(write_report([report]), ALL)
        (report,) = read_report(ALL.replace("memory read 0 1", "gets"))
        self.assertEqual(report.causes.deliveries[0, 0], DeliveryCauses(gets=True, puts=(1,), sends=(0, 1)))

    def test_causes_or_costs_alone(self) -> None:
        for part, absent in ((WHY, "update_cost"), (COST, "causes")):
            text = BLOCK.replace("executed", f"{part}executed")
            (report,) = read_report(text)
            self.assertIsNone(getattr(report, absent))
            self.assertEqual(write_report([report]), text)

    def test_causes_and_costs_that_are_none(self) -> None:
        wrong = [
            ("why turn 0 0 new", "why turn 0 0"),
            ("why turn 0 0 new", "why turn 0 0 new args"),
            ("why turn 0 0 new", "why turn 0 1 new"),
            ("why turn 0 0 new", "why delivery 0 0 new"),
            ("why turn 0 0 new\n", ""),
            ("word 0 3", "word"),
            ("args queue", "queue args"),
            ("read 0 1", "read 01"),
            ("memory read", "memory  read"),
            ("sends 0 1", "sends 0 1 "),
            ("turns 0 0 1\nturns 1 0 1\ndeliveries 0 0\n", ""),
            ("update 1 4 0 4", "update 1 4 0"),
            ("update total 17\n", ""),
            ("update total 17", "update total"),
            ("update total 17\n", "update total 17\nupdate total 17\n"),
            (COST, COST.replace("update total 17\n", "") + WHY + "update total 17\n"),
        ]
        for right, other in wrong:
            with self.subTest(other):
                self.assertIn(right, ALL)
                self.assertRaises(MalformedReport, read_report, ALL.replace(right, other))

    def test_copies(self) -> None:
        (report,) = read_report(ALL)
        for copied in (pickle.loads(pickle.dumps(report)), copy.deepcopy(report), replace(report)):
            self.assertEqual(copied, report)
        self.assertEqual(repr(report), repr(read_report(ALL)[0]))
        self.assertEqual(hash(report.causes), hash(read_report(ALL)[0].causes))
        self.assertEqual(repr(report.memories), "{0: (1, 2), 1: ()}")
        self.assertEqual(hash(report.redelivered), hash((Place(0, 0),)))
        self.assertEqual((report.executed[1:3], report.executed[-1]), ((Place(0, 1), Place(1, 0)), Place(1, 1)))
        self.assertNotEqual(report.executed, report.redelivered)
        self.assertIn(1, report.memories)
        self.assertNotIn(2, report.memories)

    def test_other_blocks(self) -> None:
        text = f"{BLOCK}run 1\nrefused E5 at 3\nrun 2\nunread J3\nrun 3\nunread undo\n"
        self.assertEqual(read_report(text)[1:], [Refusal(1, 3, "E5"), Unread(2, "J3"), Unread(3, "undo")])
        self.assertEqual(write_report(read_report(text)), text)

    def test_places_that_are_not_told(self) -> None:
        (report,) = read_report(
            "".join(line for line in BLOCK.splitlines(True) if not line.startswith(("turns", "deliv")))
        )
        self.assertEqual((report.executed, report.redelivered, report.executed_count), (None, None, 4))

    def test_no_place_at_all(self) -> None:
        kept = [line for line in BLOCK.splitlines(True) if not line.startswith(("turns", "deliv", "exec"))]
        (report,) = read_report("".join([*kept, "executed 0 redelivered 0\n"]))
        self.assertEqual((report.executed, report.redelivered), ((), ()))

    def test_what_changed(self) -> None:
        changes = "memory 1\nsilent 0\nprint 1 4\ncost 0 3 2 16\ncosts 1\ntotal 16\nexecuted 1 redelivered 0\n"
        text = f"{BLOCK}run 1\nstatus halted\n{changes}"
        first, second = read_report(text)
        self.assertTrue(first.is_whole)
        self.assertFalse(second.is_whole)
        self.assertEqual(write_report([first, second]), text)
        whole = second.after(first)
        self.assertEqual(whole.memories, first.memories)
        self.assertEqual(whole.lines, {0: (), 1: ((4,),)})
        self.assertEqual(whole.costs, {0: Cost(3, 2, 16)})
        self.assertRaises(ValueError, second.after, second)

    def test_no_text(self) -> None:
        self.assertEqual(read_report(""), [])

    def test_what_is_no_report(self) -> None:
        wrong = {
            1: ["run", "run 01", "run x", "status halted"],
            2: ["status", "status ended", "status faulted", "refused E6 at 0", "refused E1 at", ""],
            3: ["fault 0 F13", "fault 0 F1", "fault 0 F4 1", "fault 00 F4"],
            5: ["memory", "memory 0 01", "memory 0  1", "memory 0 -1", "memory 0 "],
            8: ["print", "print 00", "print 0 05", "print 0 -5"],
            9: ["cost 0 3 2", "cost 0 3 2 x", "cost 0 3 2 15 9", "cost"],
            10: ["cost 00 4 0 4", "cost 1 4 0"],
            11: ["totals 19", "total", "total 19 "],
            12: ["turns 0", "turns"],
            15: [
                "executed 4",
                "executed 3 redelivered 1",
                "executed 4 redelivered 0",
                "total 3",
                "executed 4 redelivered 01",
                "executed",
            ],
        }
        for number, lines in wrong.items():
            for line in lines:
                with self.subTest(line):
                    text = BLOCK.splitlines()
                    text[number - 1] = line
                    with self.assertRaises(MalformedReport) as raised:
                        read_report("".join(f"{each}\n" for each in text))
                    self.assertEqual(raised.exception.line, number)

    def test_lines_of_a_process_in_two_places(self) -> None:
        text = BLOCK.replace("print 0 5 6\n", "print 1\nprint 0 5 6\n")
        with self.assertRaises(MalformedReport) as raised:
            read_report(text)
        self.assertEqual((raised.exception.line, raised.exception.text), (9, "print 0 5 6"))

    def test_no_end_of_a_line(self) -> None:
        self.assertRaises(MalformedReport, read_report, BLOCK[:-1])

    def test_each_beginning_is_no_report_or_written_back(self) -> None:
        for end in range(len(ALL)):
            try:
                self.assertEqual(write_report(read_report(ALL[:end])), ALL[:end])
            except MalformedReport:
                pass
