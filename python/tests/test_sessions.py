"""Sessions with a tool that answers by the plain model."""

from __future__ import annotations

import contextlib
import json
import tempfile
import tomllib
import unittest
from collections.abc import Callable, Sequence
from unittest.mock import patch

from pipes import Pipe
from places import text_of_place
from stored import HEAT, fake

from drawn import Draw, draw_batch, draw_heat
from fannulavo import (
    Area,
    Argument,
    Block,
    Causes,
    Cost,
    DeliveryCauses,
    Edit,
    Limit,
    NoSuchPlace,
    NothingToUndo,
    NotRead,
    Place,
    Prices,
    Put,
    Refusal,
    Refused,
    Report,
    Session,
    SessionClosed,
    Store,
    ToolEnded,
    TurnCauses,
    Unread,
    UpdateCost,
    View,
    Word,
    read_report,
    write_report,
)
from model import answer
from modelled.limits import MOST_WORKERS
from talking import WORKERS, drawn_asks, drawn_job
from talks import Ask

KINDS = {"word": Word, "arg": Argument, "limit": Limit, "prices": Prices}
EDIT = [Word(0, 1, 5)]
RATES = {"undo": 0.25, "document": 0.08, "shown": 0.2}  # of the lines of a talk


def edits_of(rows: list[list]) -> list[Edit]:
    return [KINDS[name](*numbers) for name, *numbers in rows]


def said_of(call: Callable[[], Report], number: int) -> Block:
    """The block of the line that a call says."""
    try:
        return call()
    except Refused as refused:
        return Refusal(number, refused.place, refused.fault)
    except NotRead as unread:
        return Unread(number, unread.reason)


def answer_to(session: Session, number: int, batch: list[Edit]) -> Block:
    """The block of a batch."""
    return said_of(lambda: session.apply(batch), number)


def said_to(session: Session, ask: Ask, number: int) -> Block:
    """The block of a line, which may be none that the package says by itself."""
    if ask.is_undo:
        return said_of(session.undo, number)
    if ask.unread or not ask.batch:
        with patch("fannulavo.session.batch_text", lambda _: ask.line.decode()):
            return answer_to(session, number, [])
    return answer_to(session, number, edits_of(ask.batch))


def results(report: Block) -> tuple:
    """What a run gave, whatever was made anew for it."""
    assert isinstance(report, Report)
    return report.status, report.faults, report.memories, report.lines, report.costs, report.total


class Batches(unittest.TestCase):
    """Sessions of random batches, with the tool that answers by the model; built.py has the same with a built one."""

    names = ("bsp_tool", "heat", "oddeven", "collectives", "bsp_kernel")

    def tool(self, name: str = "heat") -> list[str]:
        return fake(name)

    def whole(self, document: bytes) -> str:
        """The report of a whole document, with its places."""
        given = answer("heat", document, places=True)
        self.assertEqual(given.error, "")
        return given.report

    def document(self, memories: list, args: list, **more: object) -> bytes:
        values = {"program": "heat", "limit": 20, "g": 3, "l": 7, "memory": memories, "args": args, **more}
        return "".join(f"{key} = {json.dumps(value)}\n" for key, value in values.items()).encode()

    def test_fifty_batches_are_those_of_the_whole_document(self) -> None:
        for seed, workers in ((1, 1), (2, 3), (3, 16)):
            draw = Draw(seed)
            _, memories, args = draw_heat(draw)
            batches = [draw_batch(draw, memories, args) for _ in range(50)]
            with Session(self.tool(), self.document(memories, args), workers) as session:
                blocks = [
                    session.report,
                    *(answer_to(session, n, edits_of(batch)) for n, batch in enumerate(batches, 1)),
                ]
            self.assertEqual(write_report(blocks), self.whole(self.document(memories, args, batches=batches)))

    def same_as_whole(self, name: str, seed: int) -> None:
        """Sees that the reports of a session are those of the whole blocks that the same tool writes to the same
        lines. Every other session is over before they are read in full, and every other pair tells causes and costs."""
        draw = Draw(f"whole {name} {seed}")
        document = drawn_job(name, draw)
        asks = [ask for ask in drawn_asks(draw, name, document, RATES) if ask.line.isascii()]
        pairs: list[tuple[Sequence[Block], bytes]] = []
        tool, workers = self.tool(name), WORKERS[seed % 3]
        told = bool(seed // 2 % 2)
        options = ["--places", *(["--why", "--update-cost"] if told else [])]
        opened = Session(tool, document, workers, why=told, update_cost=told)
        with opened as session, Pipe(tool, document, *options) as pipe:
            pairs.append((session.opening, pipe.opening.removesuffix(b"ready\n")))
            number = len(session.opening)
            for ask in asks:
                answer = pipe.ask(ask.line)
                if ask.is_document:
                    self.assertEqual(f"document\n{session.document()}end\n", answer.decode())
                    continue
                if ask.is_shown:
                    self.assertEqual(text_of_place(session, ask), answer.decode())
                    continue
                pairs.append(([said_to(session, ask, number)], answer))
                number += 1
                if seed % 2:
                    self.assertEqual(write_report(pairs[-1][0]), answer.decode(), ask)
        for blocks, text in pairs:
            self.assertEqual(list(blocks), read_report(text.decode(), changes=False))
            self.assertEqual(write_report(blocks), text.decode())

    def test_reports_are_those_of_whole_blocks(self) -> None:
        for name in self.names:
            for seed in range(6):
                with self.subTest(name, seed=seed):
                    self.same_as_whole(name, seed)

    def test_twenty_batches_are_taken_back(self) -> None:
        draw = Draw(4)
        _, memories, args = draw_heat(draw)
        with Session(self.tool(), self.document(memories, args)) as session:
            reports = [session.report]
            while len(reports) <= 20:
                with contextlib.suppress(Refused):
                    reports.append(session.apply(edits_of(draw_batch(draw, memories, args))))
            for report in reversed(reports[:-1]):
                self.assertEqual(results(session.undo()), results(report))
            self.assertRaises(NothingToUndo, session.undo)

    def test_the_document_is_the_input_as_it_is(self) -> None:
        draw = Draw(5)
        _, memories, args = draw_heat(draw)
        with Session(self.tool(), self.document(memories, args)) as session:
            for _ in range(10):
                with contextlib.suppress(Refused):
                    session.apply(edits_of(draw_batch(draw, memories, args)))
                text = session.document()
                self.assertNotIn("batches", tomllib.loads(text))
                with Session(self.tool(), text.encode()) as other:
                    self.assertEqual(results(other.report), results(session.report))
                    self.assertEqual(other.document(), text)
            self.assertEqual(session.apply([]).run, 11)

    def test_the_documents_own_batches(self) -> None:
        document = self.document([[0, 8, 0]], [[1]], batches=[[["word", 0, 1, 4]], [["limit", 0]]])
        with Session(self.tool(), document) as session:
            self.assertEqual(write_report(session.opening), self.whole(document))
            self.assertEqual(session.report.run, 1)
            self.assertEqual(session.undo().memories, session.opening[0].memories)
            self.assertRaises(NothingToUndo, session.undo)


class Calls(unittest.TestCase):
    def test_apply_undo_report_and_document(self) -> None:
        with Session(fake("heat"), HEAT) as session:
            first = session.report
            self.assertEqual(len(first.executed or ()), 12)
            second = session.apply([Word(0, 1, 80), Limit(8)])
            self.assertEqual((second.run, second.memories[0]), (1, (0, 26, 22)))
            self.assertIs(session.report, second)
            with self.assertRaises(Refused) as raised:
                session.apply([Limit(7), Word(9, 0, 0)])
            self.assertEqual((raised.exception.place, raised.exception.fault), (1, "E1"))
            self.assertIs(session.report, second)
            self.assertEqual(tomllib.loads(session.document())["memory"][0], [0, 80, 0])
            third = session.undo()
            self.assertEqual((third.run, third.memories, third.costs), (3, first.memories, first.costs))
            self.assertEqual(tomllib.loads(session.document()), tomllib.loads(HEAT.decode()))
            self.assertEqual(session.apply([]).executed, ())

    def test_causes_and_costs(self) -> None:
        with Session(fake("heat"), HEAT, why=True, update_cost=True) as session:
            opened = session.report
            self.assertEqual(list(opened.causes.turns), list(opened.executed))
            self.assertEqual(set(opened.causes.deliveries.values()), {DeliveryCauses(is_new=True)})
            self.assertEqual(opened.update_cost, UpdateCost(opened.costs, opened.total))
            report = session.apply([Word(0, 1, 80)])
            self.assertEqual(report.causes.turns[Place(1, 0)], TurnCauses(words=(1,)))
            self.assertEqual(report.causes.deliveries[1, 1], DeliveryCauses(puts=(0,)))
            self.assertEqual(str(report.causes.deliveries[2, 0]), "memory puts 1")
            self.assertEqual(report.update_cost.costs[1], Cost(0, 1, 3))
            nothing = session.apply([])
            self.assertEqual((nothing.causes, nothing.update_cost), (Causes.of({}, {}), UpdateCost({}, 0)))

    def test_causes_and_costs_that_are_not_asked_for(self) -> None:
        with Session(fake("heat"), HEAT) as session:
            report = session.apply([Word(0, 1, 80)])
            self.assertEqual((report.causes, report.update_cost), (None, None))

    def test_a_view_and_a_turn(self) -> None:
        with Session(fake("heat"), HEAT) as session:
            session.apply([Word(0, 1, 80)])
            view = View((2,), (80, 4, 0), (), (Area(0, 1), Area(2, 1)), 0)
            self.assertEqual(session.view(2, 1), view)
            turn = session.turn(2, 1)
            self.assertEqual((turn.ended, turn.fault, turn.stores), ("sync", None, (Store(1, (22,)),)))
            self.assertEqual((turn.puts, turn.work), ((Put(0, 2, (22,)), Put(2, 0, (22,))), 1))
            for place in ((4, 0), (0, 3), (-1, 0), (2**64, 0)):
                for ask in (session.view, session.turn):
                    with self.assertRaises(NoSuchPlace) as raised:
                        ask(*place)
                    self.assertEqual(raised.exception.reason, "place")
            self.assertRaises(TypeError, session.view, "0", 0)
            self.assertEqual(session.apply([]).run, 2)

    def test_the_view_after_the_last_superstep(self) -> None:
        with Session(fake("heat"), HEAT) as session:
            session.apply([Limit(1)])
            self.assertEqual(session.view(1, 0).memory, (0, 8, 0))
            self.assertRaises(NoSuchPlace, session.turn, 1, 0)

    def test_a_tool_that_knows_no_views(self) -> None:
        with Session(fake("heat", "older"), HEAT) as session:
            for ask in (session.view, session.turn):
                with self.assertRaises(NotRead) as raised:
                    ask(0, 0)
                self.assertEqual(raised.exception.reason, "J1")

    def test_the_document_opens_a_session_of_its_own(self) -> None:
        with Session(fake("heat"), HEAT) as session:
            session.apply([Word(2, 1, 3), Argument(1, 0, 1), Prices(5, 6)])
            with Session(fake("heat"), session.document().encode()) as other:
                self.assertEqual(other.report.memories, session.report.memories)
                self.assertEqual(other.report.costs, session.report.costs)

    def test_a_path(self) -> None:
        with tempfile.TemporaryDirectory() as room:
            path = f"{room}/a rod.toml"
            with open(path, "wb") as file:
                file.write(HEAT)
            with Session(fake("heat"), path) as session:
                self.assertEqual(session.report.status.kind, "halted")

    def test_what_is_no_edit_is_not_sent(self) -> None:
        for wrong in (lambda: Word(0, 0, -1), lambda: Word(0, 0, 2**63), lambda: Limit(-1)):
            self.assertRaises(ValueError, wrong)
        self.assertRaises(TypeError, lambda: Word(0, 0, 1.5))  # type: ignore[arg-type]
        with Session(fake("heat"), HEAT) as session:
            self.assertRaises(TypeError, session.apply, [["word", 0, 0, 1]])
            self.assertEqual(session.apply(EDIT).run, 1)

    def test_a_line_that_is_not_read(self) -> None:
        with Session(fake("heat"), HEAT) as session:
            with patch("fannulavo.session.batch_text", lambda _: "[1]"), self.assertRaises(NotRead) as raised:
                session.apply(EDIT)
            self.assertEqual(raised.exception.reason, "J3")
            self.assertEqual(session.apply(EDIT).run, 2)

    def test_workers(self) -> None:
        for workers in (0, MOST_WORKERS + 1):
            with self.assertRaises(ToolEnded) as raised:
                Session(fake("heat"), HEAT, workers)
            self.assertEqual(raised.exception.status, 2)
            self.assertIn("--workers", raised.exception.errors)

    def test_a_closed_session(self) -> None:
        session = Session(fake("heat"), HEAT)
        session.close()
        session.close()
        self.assertFalse(session.is_open)
        for call in (lambda: session.apply(EDIT), session.undo, session.document):
            self.assertRaises(SessionClosed, call)
        self.assertEqual(session.report.run, 0)
