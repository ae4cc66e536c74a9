"""Kernels in Python: what is made of them, what is refused, and what is told where a run faults."""

from __future__ import annotations

import contextlib
import io
import os
import random
import re
import shutil
import tempfile
import tomllib
import unittest
from collections.abc import Iterator

from drawn_texts import kernel_text
from stored import ROOT, fake, stored

from fannulavo import (
    Argument,
    BadMemories,
    BadWord,
    CodeTooLong,
    EndedTurn,
    Input,
    KernelError,
    KernelFaulted,
    Limit,
    NameNotSet,
    NoSuchPlace,
    NotInKernels,
    Recursion,
    Seen,
    Session,
    ToolEnded,
    ToolNotBuilt,
    ToolWithoutKernels,
    TooManyRegisters,
    Word,
    document,
    kernel,
    run,
    write_report,
)
from fannulavo.__main__ import main
from fannulavo.kernels import limits, running
from fannulavo.kernels.checking import Differs, compare_views, drawn_view
from fannulavo.kernels.files import KernelFile, NoKernel
from fannulavo.kernels.machine import BUDGET, Machine
from fannulavo.kernels.simulation import Taken, simulated
from fannulavo.places import Message
from limits import limits_of
from modelled.kernels import Kernel as Modelled
from modelled.turns import Message as ModelledMessage
from modelled.turns import View

TOOL = fake("bsp_kernel")
UPDATE = ("turns ", "deliveries ", "why ", "update ", "executed ")


def from_scratch(report: str) -> str:
    """The first block of a report, without the lines of its update."""
    block = report.partition("run 1\n")[0].splitlines(keepends=True)
    return "".join(line for line in block if not line.startswith(UPDATE))


TEN = 10
TABLE = [1, 2]


@kernel
def ring(p):
    """Each process sends its word on, and adds the word that comes."""
    if p.step == 0:
        p.send((p.pid + 1) % p.nprocs, [], [p.memory[0]])
        return p.sync()
    for message in p.messages():
        p.memory[0] += message[0]
    p.print(p.memory[0])
    return p.halt()


def halved(word):
    return word // 2


@kernel
def faulty(p):
    """Each way for a turn to end badly, by argument 0."""
    which, gone = p.args[0], 7
    if which == 1:
        p.print(p.memory[gone])
    elif which == 2:
        p.print(p.args[gone])
    elif which == 3:
        p.print(halved(gone) // p.memory[0])
    elif which == 4:
        while True:
            gone += 1
    elif which == 5:
        assert p.memory[0] == 1
    elif which == 6:
        p.put(p.nprocs, [1], 0)
    elif which == 7 and p.pid == 1:
        return p.halt()
    elif which == 8:
        return p.abort(gone + 2)


class InAFolder(unittest.TestCase):
    """A folder for files with kernels."""

    def setUp(self) -> None:
        self.folder = tempfile.mkdtemp(prefix="kernels-")
        self.addCleanup(shutil.rmtree, self.folder)

    def written(self, text: str, name: str = "one.py") -> str:
        path = f"{self.folder}/{name}"
        with open(path, "w", encoding="utf-8") as file:
            file.write(text)
        return path

    def shell(self, *words: str) -> tuple[int, str, str]:
        """The status, the output and the errors of a command."""
        out, errors = io.StringIO(), io.StringIO()
        with contextlib.redirect_stdout(out), contextlib.redirect_stderr(errors):
            status = main(list(words))
        return status, out.getvalue(), errors.getvalue()


class Translation(InAFolder):
    def test_drawn_kernels_leave_the_same_turns(self) -> None:
        """Random text, at random views: the function and its instructions."""
        for seed in range(40):
            with self.subTest(seed=seed):
                program = KernelFile.read(self.written(kernel_text(seed), f"drawn{seed}.py")).program
                self.assertEqual(compare_views(program, (), 12, seed), 12)

    def test_the_machine_is_that_of_the_plain_model(self) -> None:
        """Turns and footprints of drawn kernels, by this package and by ci/modelled."""
        for seed in range(40, 60):
            program = KernelFile.read(self.written(kernel_text(seed), f"drawn{seed}.py")).program
            modelled = Modelled([list(row) for row in program.code], list(program.constants), 3_000)
            for view in self.views(seed):
                with self.subTest(seed=seed, view=view):
                    queue = tuple(ModelledMessage(message.tag, message.payload) for message in view.queue)
                    other = View(view.nprocs, view.pid, view.step, view.args, view.memory, (), 0, queue)
                    acts, how = modelled.plan(other)
                    turn = program.turn_by_instructions(view, 3_000).turn
                    if turn.fault is None:
                        self.assertEqual(turn.ended, how)
                        self.assertEqual(list(turn.lines), [tuple(words) for name, *words in self.lines(acts)])
                    looked = [address for address in range(len(view.memory)) if modelled.looks(other, address)]
                    self.assertEqual(program.looks(view), looked)

    @staticmethod
    def lines(acts: list) -> list:
        return [(name, *words[0]) for name, *words in acts if name == "print"]

    @staticmethod
    def views(seed: int) -> Iterator[Seen]:
        rng = random.Random(seed)
        for _ in range(8):
            view = drawn_view(rng)
            yield Seen(view.nprocs, view.pid, view.step, view.args, view.memory, view.queue)

    def test_stored_kernels_give_their_reports(self) -> None:
        """The machine and the simulation on the documents of cases/bsp_kernel, among which each call has each fault."""
        count = 0
        for path, text, written in stored():
            if "/cases/bsp_kernel/" not in path:
                continue
            keys = tomllib.loads(written)

            def take(seen: Seen, keys: dict = keys) -> Taken:
                machine = Machine([tuple(row) for row in keys["kernel"]], keys.get("constants", []), seen)
                ended = machine.follow(keys.get("budget", BUDGET))
                end = EndedTurn(seen.pid, "", 0, "", {})
                return Taken(machine.context.turn(ended), tuple(machine.context.memory.words), end)

            report = simulated(take, Input.read(written)).report
            with self.subTest(path=path):
                self.assertEqual(write_report([report]), from_scratch(text))
            count += 1
        self.assertGreater(count, 100)

    def test_a_difference_is_found(self) -> None:
        program = KernelFile.read(self.written(kernel_text(1))).program
        program.code = (("halt",), *program.code[1:])
        self.assertRaises(Differs, compare_views, program)

    def test_a_budget_is_counted_as_the_machine_does(self) -> None:
        program = KernelFile.read(self.written("from fannulavo import kernel\n\n@kernel\ndef k(p):\n    for i in range(900):\n        p.memory[0] = i\n")).program
        seen = Seen(1, 0, 0, (), (0,))
        whole = program.turn_by_instructions(seen, 10_000)
        self.assertEqual(whole.turn.ended, "sync")
        for budget in (0, 1, 100, 2_703, 2_704, 2_705, 2_706, 2_707, 2_708, 10_000):
            with self.subTest(budget=budget):
                self.assertEqual(program.turn(seen, budget).turn, program.turn_by_instructions(seen, budget).turn)

    def test_a_budget_of_its_own(self) -> None:
        text = "from fannulavo import kernel\n\n@kernel(budget={})\ndef k(p):\n    while True:\n        p.charge(1)\n"
        program = KernelFile.read(self.written(text.format(30))).program
        report = program.simulate([[0]], may_fault=True)
        self.assertEqual((report.faults, report.costs[0].work), ({0: "F1 6"}, 15))
        self.assertIn("budget = 30\n", program.keys())
        for budget in ("-1", "1.5", "2**63"):
            self.assertRaises(BadWord, KernelFile.read, self.written(text.format(budget)))

    def test_a_kernel_as_a_text(self) -> None:
        lines = str(ring).splitlines()
        self.assertEqual(len(lines), len(ring.code))
        self.assertTrue(any(re.search(r"store =0 r\d+$", line) for line in lines), lines)
        self.assertTrue(any("for message in p.messages():" in line for line in lines))
        self.assertIn("ring", repr(ring))
        with self.assertRaisesRegex(TypeError, "ring is a kernel"):
            ring(None)

    def test_where_a_turn_looks(self) -> None:
        traced = ring.trace([[5, 6], [7, 8]])
        self.assertEqual((ring.looks(traced.seen(0, 0)), ring.looks(traced.seen(1, 0))), ([0], [0]))
        self.assertEqual(faulty.looks(faulty.trace([[1]], [5], limit=1).seen(0, 0)), [0])
        self.assertEqual(ring.looks(Seen(2, 0, 1, (), (5, 6))), [0])

    def test_what_a_run_shows(self) -> None:
        traced = ring.trace([[5], [7]], limit=1)
        self.assertEqual(traced.report.status.kind, "limit")
        self.assertEqual(traced.view(1, 0).queue, (Message((), (7,)),))
        self.assertEqual(traced.turn(0, 1).sends[0].payload, (7,))
        for superstep, process in ((1, 0), (2, 0), (0, 2), (-1, 0)):
            self.assertRaises(NoSuchPlace, traced.turn, superstep, process)

    def test_a_document(self) -> None:
        text = document(ring, [[5], [7]], [1], limit=9, batches=[[Word(0, 0, 3)], [Argument(1, 0, 2), Limit(4)]])
        self.assertEqual(Input.read(text), Input(((5,), (7,)), ((1,), (1,)), 9))
        self.assertIn('batches = [[["word", 0, 0, 3]], [["arg", 1, 0, 2], ["limit", 4]]]', text)
        self.assertIn("p.memory[0] += message[0]", text)
        self.assertEqual(Input.read(text).edited([Word(0, 0, 3), Limit(2)]).memory, ((3,), (7,)))


HEAD = "from fannulavo import kernel\n\n\n"
# The lines of a kernel, the part that is marked, and a part of what to write instead.
NOT_IN_KERNELS = [
    ("x = p.pid / 2", "p.pid / 2", "write // for the quotient"),
    ("x = p.pid ** 2", "p.pid ** 2", "1 << n"),
    ("x = 1.5", "1.5", "whole numbers"),
    ("x = 'a'", "'a'", "whole numbers"),
    ("x = 2**64", "2**64", "1 << n"),
    ("x = 18446744073709551616", "18446744073709551616", "0 to 2**64 - 1"),
    ("x = None", "None", "whole numbers"),
    ("x = [1, 2]", "[1, 2]", "keep words in p.memory"),
    ("x = (1, 2)", "(1, 2)", "keep more of them in p.memory"),
    ("x = {1: 2}", "{1: 2}", "if and elif"),
    ("x = [i for i in range(3)]", "[i for i in range(3)]", "a loop that stores"),
    ("x = lambda: 1", "lambda: 1", "a helper with `def`"),
    ("x = f'{p.pid}'", "f'{p.pid}'", "words are numbers"),
    ("x = (y := 1)", "y := 1", "a line of its own"),
    ("x = p", "p", "write its members"),
    ("x = p.memory", "p.memory", "p.memory[i]"),
    ("x = p.memory[-1]", "-1", "len(p.memory) - 1"),
    ("x = p.memory[0:2]", "p.memory[0:2]", "words of a put, a send or a print"),
    ("x = p.nproc", "p.nproc", "p.nprocs"),
    ("x = p.pid in p.memory", "p.pid in p.memory", "or a loop"),
    ("x = p.pid is None", "p.pid is None", "one of these"),
    ("x = len(p.args)", "len(p.args)", "by p.args"),
    ("x = sum(p.memory)", "sum(p.memory)", "write a loop"),
    ("x = range(3)", "range(3)", "in the head of a loop"),
    ("x = len(1, 2)", "len(1, 2)", "len(p.memory)"),
    ("x = min(1)", "min(1)", "min(a, b)"),
    ("x = TABLE", "TABLE", "whole numbers and helpers"),
    ("x = BIG", "BIG", "0 to 2**64 - 1"),
    ("x = TABLE(1)", "TABLE(1)", "`def` above the kernel"),
    ("x = two(1)", "two(1)", "write two(p, a)"),
    ("x = two(p, p)", "p", "leave the second one away"),
    ("x = some(1)", "if a:", "return WORD"),
    ("x = p.put(0, [1], 0)", "p.put(0, [1], 0)", "a line of its own"),
    ("p.memory[0:2] = [1, 2]", "p.memory[0:2]", "write a loop"),
    ("p.pid = 1", "p.pid", "a name of its own"),
    ("p = 1", "def k(p):", "a name of its own"),
    ("a, b = 1, 2, 3", "1, 2, 3", "a word for each name"),
    ("a, b = p.pid", "a, b", "a name of its own"),
    ("p.put(0, 1, 0)", "1", "a list, as [x, y], or a block"),
    ("p.put(0, p.memory[0:4:2], 0)", "p.memory[0:4:2]", "p.memory[a:b]"),
    ("p.put(0, [1])", "p.put(0, [1])", "p.put(pid, words, area, offset)"),
    ("p.put(0, [1], offset=0)", "p.put(0, [1], offset=0)", "p.put(pid, words, area, offset)"),
    ("p.send(0, 1, [])", "1", "[] or [x]"),
    ("p.hpput(0, [1], 0)", "p.hpput(0, [1], 0)", "p.put"),
    ("p.print(x=1)", "p.print(x=1)", "p.print(x, y)"),
    ("p.print(*p.memory[0:2])", "*p.memory[0:2]", "p.memory[a:b]"),
    ("print(1)", "print(1)", "p.print"),
    ("p.sync()", "p.sync()", "return p.sync()"),
    ("p.messages()", "p.messages()", "for message in p.messages()"),
    ("p.memory.sort()", "p.memory.sort()", "call the context"),
    ("return 1", "return 1", "return p.sync()"),
    ("for x in p.memory:\n    pass", "for x in p.memory:", "range(a, b)"),
    ("for i in range(3):\n    pass\nelse:\n    pass", "pass", "behind the loop"),
    ("for i in range(3, 0, -1):\n    pass", "-1", "for k in range(n)"),
    ("for i in range(3, 0, 0):\n    pass", "0", "a step from 1 on"),
    ("for i in range():\n    pass", "range()", "range(end)"),
    ("for m in p.messages(1):\n    pass", "p.messages(1)", "p.messages()"),
    ("for m in p.messages():\n    for n in p.messages():\n        pass", "p.messages()", "in one loop"),
    ("for m in p.messages():\n    x = m", "m", "message[i]"),
    ("for m in p.messages():\n    x = m.tag[p.pid]", "m.tag[p.pid]", "message.tag[0]"),
    ("for m in p.messages():\n    m = 1", "m", "a name of its own"),
    ("with open('a') as f:\n    pass", "with open('a') as f:", "leave it away"),
    ("try:\n    pass\nexcept ValueError:\n    pass", "try:", "test before"),
    ("raise ValueError", "raise ValueError", "p.abort(code)"),
    ("import os", "import os", "above the kernel"),
    ("global TABLE", "global TABLE", "p.memory"),
    ("def f():\n    pass", "def f():", "above the kernel"),
    ("yield 1", "yield 1", "set a name"),
    ("x = 1; del x", "del x", "leave it away"),
]
AROUND = "TABLE = [1, 2]\nBIG = 2**70\n\n\ndef two(p, a):\n    return a\n\n\ndef some(a):\n    if a:\n        return 1\n\n\n"


class Refusals(InAFolder):
    """Text that is refused where it stands."""

    def refused(self, text: str) -> KernelError:
        with self.assertRaises(KernelError) as raised:
            KernelFile.read(self.written(text))
        return raised.exception

    def of_lines(self, lines: str) -> KernelError:
        body = "".join(f"    {line}\n" for line in lines.split("\n"))
        return self.refused(f"{HEAD}{AROUND}@kernel\ndef k(p):\n{body}")

    def test_what_is_not_in_kernels(self) -> None:
        for lines, marked, instead in NOT_IN_KERNELS:
            with self.subTest(lines=lines):
                error = self.of_lines(lines)
                self.assertIs(type(error), NotInKernels)
                self.assertIn(instead, error.instead)
                first, text, mark, _ = str(error).split("\n")
                self.assertTrue(first.startswith(f"{error.file}:{error.line}: "), first)
                self.assertEqual(text[4:], error.text)
                self.assertTrue(text[mark.index("^") : mark.rindex("^") + 1].startswith(marked.rstrip(":")), (text, mark))

    def test_names_that_are_not_set(self) -> None:
        for lines in ("x = y", "if p.pid:\n    x = 1\np.print(x)", "for i in range(3):\n    pass\np.print(i)", "x += 1", "x = nobody(1)"):
            with self.subTest(lines=lines):
                self.assertIs(type(self.of_lines(lines)), NameNotSet)

    def test_names_that_are_set_on_every_way(self) -> None:
        lines = [
            "if p.pid:\n    x = 1\nelse:\n    x = 2\np.print(x)",
            "if p.pid:\n    x = 1\nelse:\n    return p.halt()\np.print(x)",
            "while True:\n    x = 1\n    break\np.print(x)",
            "x = 0\nfor i in range(3):\n    x = i\np.print(x)",
        ]
        for each in lines:
            body = "".join(f"    {line}\n" for line in each.split("\n"))
            self.assertTrue(compare_views(KernelFile.read(self.written(f"{HEAD}@kernel\ndef k(p):\n{body}")).program, (), 9))

    def test_recursion(self) -> None:
        for text in (
            "def f(a):\n    return f(a)\n\n\n@kernel\ndef k(p):\n    x = f(1)\n",
            "def f(a):\n    return g(a)\n\n\ndef g(a):\n    return f(a)\n\n\n@kernel\ndef k(p):\n    x = f(1)\n",
            "@kernel\ndef k(p):\n    return k(p)\n",
        ):
            error = self.refused(HEAD + text)
            self.assertIs(type(error), Recursion)
            self.assertIn("loop", error.instead)

    def test_too_many_registers(self) -> None:
        lines = "\n".join(f"x{i} = {i}" for i in range(300))
        self.assertIs(type(self.of_lines(lines)), TooManyRegisters)
        self.assertIs(type(self.of_lines(f"p.print({', '.join(['p.pid'] * 260)})")), TooManyRegisters)
        self.assertIn("p.memory", self.of_lines(lines).instead)

    def test_code_that_is_too_long(self) -> None:
        helpers = "def f0(a):\n    return a + a\n\n\n"
        for i in range(1, 20):
            helpers += f"def f{i}(a):\n    return f{i - 1}(a) + f{i - 1}(a)\n\n\n"
        error = self.refused(f"{HEAD}{helpers}@kernel\ndef k(p):\n    x = f19(p.pid)\n")
        self.assertIs(type(error), CodeTooLong)
        self.assertIn("in a loop", error.instead)

    def test_what_is_no_function(self) -> None:
        self.assertRaises(TypeError, kernel, 3)
        with self.assertRaisesRegex(TypeError, "write the kernel in a file"):
            exec("from fannulavo import kernel\n@kernel\ndef k(p):\n    pass\n", {})
        for text in ("k = kernel(lambda p: 1)\n", "@kernel\ndef k():\n    pass\n", "@kernel\ndef k(p, q):\n    pass\n", "@kernel\ndef k(*p):\n    pass\n"):
            self.assertIs(type(self.refused(HEAD + text)), NotInKernels)


class Array:
    """A stand-in for an array of numpy: it gives a list, and its items are whole numbers."""

    def __init__(self, words: list):
        self.words = words
        self.ndim = 1 + isinstance(words[0], list)

    def tolist(self) -> list:
        return self.words

    def __len__(self) -> int:
        return len(self.words)


class Inputs(unittest.TestCase):
    def test_lists_and_arrays(self) -> None:
        wanted = Input(((1, 2), (3, 4)), ((6,), (6,)))
        for memory in ([[1, 2], [3, 4]], ((1, 2), range(3, 5)), Array([[1, 2], [3, 4]]), [Array([1, 2]), [3, 4]]):
            for args in (6, [6], [[6], [6]], Array([6]), Array([[6], [6]]), [Array([6]), (6,)]):
                self.assertEqual(Input.of(memory, args), wanted)

    def test_words_that_are_none(self) -> None:
        for word in (-1, 2**63, 2**64, 1.0, "1", None):
            for given in ({"memory": [[1], [word]]}, {"memory": [[1]], "args": [[word]]}, {"memory": [[1]], "limit": word}):
                with self.subTest(given=given), self.assertRaisesRegex(BadWord, "write"):
                    ring.simulate(**given)

    def test_memories_that_are_none(self) -> None:
        for memory in (None, 5, [], [1, 2], [[1], 2], {0: [1]}, "ab"):
            with self.subTest(memory=memory), self.assertRaisesRegex(BadMemories, "write a list of words"):
                ring.simulate(memory)
        for wrong in (lambda: Session(ring, tool=TOOL), lambda: Session(ring, [[1], [2]], tool=TOOL)):  # type: ignore
            self.assertRaisesRegex(BadMemories, "write a list of words", wrong)
        for args in ([[1]], [[1], [2], [3]], {1}, [[1], 2]):
            with self.subTest(args=args), self.assertRaisesRegex(BadMemories, "write args="):
                ring.simulate([[1], [2]], args)

    def test_the_limits_are_those_of_the_tools(self) -> None:
        own = {name: value for name, value in vars(limits).items() if name.isupper()}
        self.assertEqual(own, {name: value for name, value in limits_of(ROOT).items() if name in own})


class Faults(unittest.TestCase):
    """Where a turn ended that has a fault."""

    WORDS = {1: "F1 1", 2: "F1 2", 3: "F1 5", 4: "F1 6", 5: "F1 {}", 6: "F2 2", 8: "F1 9"}
    TEXTS = {
        1: "p.print(p.memory[gone])",
        2: "p.print(p.args[gone])",
        3: "p.print(halved(gone) // p.memory[0])",
        5: "assert p.memory[0] == 1",
        6: "p.put(p.nprocs, [1], 0)",
        8: "return p.abort(gone + 2)",
    }

    def faulted(self, which: int) -> KernelFaulted:
        with self.assertRaises(KernelFaulted) as raised:
            faulty.simulate([[0], [0]], [which])
        return raised.exception

    def test_the_line_and_the_locals(self) -> None:
        for which, text in self.TEXTS.items():
            with self.subTest(which=which):
                error = self.faulted(which)
                end = error.turns[0]
                self.assertEqual((end.text, error.superstep, error.process), (text, 0, 0))
                self.assertEqual(error.locals, {"which": which, "gone": 7})
                self.assertEqual(error.report.faults[1], self.WORDS[which].format(error.line))
                self.assertIn(f"test_kernels.py:{error.line}: {text}", str(error))

    def test_a_budget_that_is_spent(self) -> None:
        whole, faulty.budget = faulty.budget, 5_000
        self.addCleanup(setattr, faulty, "budget", whole)
        error = self.faulted(4)
        self.assertEqual(error.report.faults, {0: "F1 6", 1: "F1 6"})
        self.assertIn(error.turns[0].text, ("gone += 1", "while True:"))
        self.assertGreater(error.locals["gone"], 1_000)

    def test_a_fault_of_the_end_of_a_superstep(self) -> None:
        error = self.faulted(7)
        self.assertEqual((str(error.report.status), error.report.faults), ("syncfault 0 S1", {}))
        self.assertEqual([turn.process for turn in error.turns], [0, 1])
        self.assertEqual(error.turns[1].text, "return p.halt()")

    def test_a_report_where_that_is_wanted(self) -> None:
        report = faulty.simulate([[0], [0]], [8], may_fault=True)
        self.assertEqual(str(report.status), "faulted 0")
        self.assertEqual(run(faulty, [[0], [0]], [8], may_fault=True, tool=TOOL).faults, report.faults)

    def test_a_fault_by_the_tool(self) -> None:
        with self.assertRaises(KernelFaulted) as raised:
            run(faulty, [[0], [0]], [8], tool=TOOL)
        self.assertEqual((raised.exception.line, raised.exception.process), (self.faulted(8).line, 0))


class Sessions(unittest.TestCase):
    """Sessions of kernels, with the tool that answers by the plain model."""

    def test_edits(self) -> None:
        with Session(ring, memory=[[1], [2], [3]], g=4, l=10, tool=TOOL, why=True) as session:
            self.assertEqual(dict(session.report.lines), ring.simulate([[1], [2], [3]]).lines)
            report = session.apply([Word(0, 0, 5)])
            self.assertEqual(dict(report.lines), {0: ((8,),), 1: ((7,),), 2: ((5,),)})
            self.assertEqual(report.executed, ((0, 0), (1, 0), (1, 1)))
            self.assertEqual(report.causes.turns[1, 1].queue, True)
            given = Input.read(session.document())
            self.assertEqual(session.view(1, 1), ring.trace(given).view(1, 1))
            self.assertEqual(session.turn(1, 1), ring.trace(given).turn(1, 1))

    def test_a_fault_leaves_the_edits(self) -> None:
        with Session(faulty, memory=[[0]], args=[0], limit=1, tool=TOOL) as session:
            with self.assertRaises(KernelFaulted) as raised:
                session.apply([Argument(0, 0, 8)])
            self.assertEqual((raised.exception.superstep, session.report.faults), (0, {0: "F1 9"}))
            self.assertEqual(session.undo().status.kind, "limit")

    def test_nothing_half_open_stays_behind(self) -> None:
        before = set(os.listdir("/proc/self/fd"))
        for given in ({"memory": [[0]], "args": [8]}, {"memory": [0]}, {"memory": [[-1]]}, {"memory": [[0]], "limit": 0}):
            with self.subTest(given=given), self.assertRaises((KernelFaulted, BadMemories, BadWord, ToolEnded)):
                Session(faulty, tool=TOOL, **given)
        self.assertEqual(set(os.listdir("/proc/self/fd")), before)

    def test_a_fault_that_may_be(self) -> None:
        with Session(faulty, memory=[[0]], args=[8], tool=TOOL, may_fault=True) as session:
            self.assertEqual(session.report.faults, {0: "F1 9"})

    def test_a_tool_that_is_not_there(self) -> None:
        for tool in ("/nowhere/bsp_kernel", [], ["no-such-tool"]):
            with self.subTest(tool=tool), self.assertRaisesRegex(ToolNotBuilt, "./build bsp_kernel"):
                Session(ring, memory=[[1]], tool=tool)
        built, path = running.BUILT, os.environ["PATH"]
        self.addCleanup(setattr, running, "BUILT", built)
        self.addCleanup(os.environ.__setitem__, "PATH", path)
        running.BUILT = running.BUILT.with_name("none")
        os.environ["PATH"] = ""
        with self.assertRaisesRegex(ToolNotBuilt, "tool=PATH"):
            run(ring, [[1]])

    def test_a_tool_that_knows_no_kernels(self) -> None:
        for start in (lambda tool: Session(ring, memory=[[1]], tool=tool), lambda tool: run(ring, [[1]], tool=tool)):
            with self.assertRaisesRegex(ToolWithoutKernels, "./build bsp_kernel"):
                start(fake("heat"))

    def test_keywords_without_a_kernel(self) -> None:
        self.assertRaises(TypeError, Session, ["sh"], b"", memory=[[1]])


class Shell(InAFolder):
    TEXT = f"{HEAD}example = {{'memory': [[1], [2]], 'g': 4}}\n\n\n@kernel\ndef one(p):\n    p.print(p.memory[0])\n    return p.halt()\n"

    def test_a_document(self) -> None:
        status, out, errors = self.shell("kernel", self.written(self.TEXT))
        self.assertEqual((status, errors), (0, ""))
        self.assertEqual(Input.read(out).memory, ((1,), (2,)))
        self.assertIn("# 9: p.print(p.memory[0])", out)

    def test_a_check(self) -> None:
        status, out, errors = self.shell("check", self.written(self.TEXT))
        self.assertEqual((status, errors), (0, ""))
        self.assertIn("leave the same turns", out)
        self.assertIn("6 runs have the same reports", out)

    def test_several_kernels(self) -> None:
        path = self.written(f"{self.TEXT}\n\n@kernel\ndef two(p):\n    pass\n")
        self.assertEqual(self.shell("kernel", path)[0], 1)
        self.assertIn("one, two: name one", self.shell("kernel", path)[2])
        self.assertIn("# two", self.shell("kernel", path, "two")[1])
        self.assertRaises(NoKernel, KernelFile.read, path, "three")

    def test_what_goes_wrong(self) -> None:
        for text, said in (("x = 1\n", "@kernel"), ("x =\n", "invalid syntax"), (f"{HEAD}@kernel\ndef k(p):\n    x = y\n", "y is not set")):
            status, out, errors = self.shell("check", self.written(text))
            self.assertEqual((status, out), (1, ""))
            self.assertIn(said, errors)
        self.assertEqual(self.shell("kernel", f"{self.folder}/none.py")[0], 1)
        for words in ((), ("kernel",), ("check", "a", "b", "c"), ("other", "a")):
            self.assertEqual(self.shell(*words)[0], 2)
