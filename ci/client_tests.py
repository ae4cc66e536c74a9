"""Shows that the parts of the gate fail where they have to that have to do with clients: tests of ci/test_gate."""
import os
import shutil

from model import answer
from place import InAPlace


class Python(InAPlace):
    TEST = (
        "import unittest\n\n\nclass Some(unittest.TestCase):\n    def test_it(self):\n        self.assertEqual(1, {})\n"
    )

    def setUp(self):
        super().setUp()
        shutil.rmtree(f"{self.place.root}/python/tests")
        os.mkdir(f"{self.place.root}/python/tests")

    def test_tests_pass_and_fail(self):
        self.place.write("python/tests/test_one.py", self.TEST.format(1).encode())
        self.passes("1 passed, 0 failed", "ci/python")
        self.place.write("python/tests/test_two.py", self.TEST.format(2).encode())
        self.fails("1 passed, 1 failed", "1 != 2", "ci/python")

    def test_tests_that_can_not_be_read(self):
        self.place.write("python/tests/test_one.py", b"import nowhere\n")
        self.fails("0 passed, 1 failed", "No module named 'nowhere'", "ci/python")

    def test_no_tests(self):
        self.fails("0 passed, 1 failed", "nothing was tried", "ci/python")


def talker(place, *words):
    """Puts the tool that answers by the model, with these words, in the place of the built one."""
    fake = '"$(dirname "$0")/../../../python/tests/fake_tool.py"'
    place.program("heat", f'exec python3 -B {fake} heat {" ".join(words)} "$@"')


class Sessions(InAPlace):
    def test_a_right_tool_passes(self):
        talker(self.place)
        self.passes("7 passed, 0 failed", "ci/sessions", "built")

    def test_a_tool_that_takes_back_once(self):
        talker(self.place, "--flaw", "undoes_once")
        self.fails("5 passed, 2 failed", "test_twenty_batches_are_taken_back", "ci/sessions", "built")

    def test_a_program_that_knows_no_session(self):
        self.place.program("heat", "exit 2")
        self.fails("0 passed, 12 failed", "ToolEnded", "ci/sessions", "built")  # a test that tries six seeds fails with each

    def test_a_program_that_is_not_built(self):
        self.place.script("bin/rt", "exit 1")
        self.fails("0 passed, 1 failed", "heat was not built", "ci/sessions", "built")

    def test_a_tool_that_knows_no_kernels(self):
        for crate in ("bsp_kernel", "bsp_tool", "heat", "oddeven", "samplesort"):
            self.place.program(crate, "cat > /dev/null; echo fault J4 >&2; exit 3")
        self.fails("0 passed, 16 failed", "ToolWithoutKernels", "ci/sessions", "built_kernels.BuiltGallery.test_drawn_inputs")


class Progress(InAPlace):
    LINES = "printf 'run 0\\n'; show() { printf '\\rrun 3, superstep 9\\033[K\\r\\033[K' >&2; }"
    TOLD = "told() { printf '\\rrun %s, superstep 7\\033[K' $1 >&2; }; away() { printf '\\r\\033[K' >&2; }; block() { printf 'run %s\\nexecuted 1 redelivered 1\\n' $1; }"
    LIVE = "told 0; away; block 0; echo ready; for run in 1 2 3; do read -r line; [ $run = 3 ] || { told $run; away; }; block $run; done; cat"

    BATCHES = "told 0; told 1; told 2; away; echo run 0; exit"

    def live(self, *changes, batches=BATCHES):
        text = self.LIVE
        for old, new in changes:
            text = text.replace(old, new)
        self.place.program("bsp_kernel", f'{self.TOLD}; if [ "$1" != --follow ]; then cat > /dev/null; {batches}; fi; {text}')

    def test_programs_that_show_their_progress_pass(self):
        self.place.program("heat", f'{self.LINES}; if [ -t 2 ] && [ "$2" != --quiet ]; then show; fi')
        self.live()
        self.passes("5 passed, 0 failed", "ci/progress")

    def test_a_program_that_shows_it_always_or_never(self):
        self.live()
        self.place.program("heat", f"{self.LINES}; show")
        self.fails("3 passed, 2 failed", "test_quiet", "ci/progress")
        self.place.program("heat", self.LINES)
        self.fails("4 passed, 1 failed", "test_a_terminal", "ci/progress")

    def test_a_session_that_shows_it_wrongly(self):
        self.place.program("heat", f'{self.LINES}; if [ -t 2 ] && [ "$2" != --quiet ]; then show; fi')
        wrong = {
            "another run": ("told $run", "told 0"),
            "it stays": ("told $run; away", "told $run"),
            "it is taken away behind the answer": ("away; }; block $run", "}; block $run; sleep 1; away"),
            "the time between two answers counts": ("[ $run = 3 ] || ", ""),
        }
        for name, change in wrong.items():
            with self.subTest(wrong=name):
                self.live(change)
                self.fails("4 passed, 1 failed", "test_the_line_is_taken_away_before_an_answer", "ci/progress")
        self.live(batches=self.BATCHES.replace("told 2", "told 0"))
        self.fails("4 passed, 1 failed", "test_the_batches_of_a_document", "ci/progress")

    def test_a_program_that_is_not_built(self):
        self.place.script("bin/rt", "exit 1")
        self.fails("0 passed, 2 failed", "was not built", "ci/progress")


class Threads(InAPlace):
    def test_a_program_whose_workers_do_not_come(self):
        for crate in ("heat", "bsp_kernel"):
            self.place.program(crate, "exit 0")
        self.fails("0 passed, 7 failed", "no superstep was made", "ci/threads")

    def test_a_program_that_is_not_built(self):
        self.place.script("bin/rt", "exit 1")
        self.fails("0 passed, 1 failed", "heat was not built", "ci/threads")


class RefuseThreads(InAPlace):
    """A program of two processes with one batch, of which each start is refused by itself, and all."""

    DOCUMENT = 'program = "heat"\nlimit = 9\ng = 1\nl = 1\nmemory = [[0, 8, 0], [0, 0, 0], [0, 0, 0]]\nargs = [[1], [1], [1]]\nbatches = [[["word", 0, 1, 4]]]\n'

    def run_of(self):
        self.place.write("crates/heat/stdin", self.DOCUMENT.encode())
        self.place.write("crates/heat/stdout", answer("heat", self.DOCUMENT.encode()).report.encode())
        os.makedirs(f"{self.place.root}/cases/heat")

    def test_a_right_tool_passes(self):
        talker(self.place)
        self.run_of()
        # By 3 and by 4 workers two threads start for each of two runs: as a session, from scratch and live.
        self.passes("30 passed, 0 failed", "ci/refuse_threads", "heat")

    def test_a_tool_that_starts_no_thread(self):
        talker(self.place, "--flaw", "alone")
        self.run_of()
        self.fails("6 passed, 24 failed", "0 threads started in place of 3", "ci/refuse_threads", "heat")

    def test_a_program_that_is_not_built(self):
        self.place.script("bin/rt", "exit 1")
        self.fails("0 passed, 1 failed", "heat: its program was not built", "ci/refuse_threads", "heat")

    def test_phases_that_start_no_thread(self):
        talker(self.place)
        self.run_of()
        self.place.script("crates/pool_tests/out/pool_tests_tests", "exit 0")
        self.fails("31 passed, 6 failed", "phases, start 6 refused: 0 threads started in place of 5", "ci/refuse_threads")

    def test_phases_that_are_not_built(self):
        talker(self.place)
        self.run_of()
        self.place.script("bin/rt", "exit 1")
        self.fails("30 passed, 1 failed", "phases: the program of the tests of pool_tests was not built", "ci/refuse_threads")


class Live(InAPlace):
    """Each flaw with talks of which one shows it."""

    FLAWS = {
        "late": (0, "line 0"),
        "unread_edits": (3, "in place of"),
        "mute": (1, "on standard error"),
        "blames": (0, "on standard error"),
        "undoes_refused": (4, "undo"),
        "numbers": (1, "b'run "),
        "forgets": (2, "its first lines"),
        "looks_back": (0, "view"),
        "stays": (0, "no end after"),
        "unheard": (0, "a client that dies"),
        "alone": (1, "0 threads started"),
    }

    def test_a_right_session_passes(self):
        talker(self.place)
        # Two talks, one with long lines, and the starts that fail.
        self.passes("4 passed, 0 failed", "ci/live", "2", "0", "heat")

    def test_flaws_are_seen(self):
        for flaw, (seed, said) in self.FLAWS.items():
            with self.subTest(flaw=flaw):
                talker(self.place, "--flaw", flaw)
                status, lines = self.place.run("ci/live", "1", str(seed), "heat", LIVE_SECONDS="3")
                self.assertEqual(status, 1, lines)
                self.assertTrue(any(said in line for line in lines), lines)

    def test_a_program_that_knows_no_session(self):
        self.place.program("heat", "exit 2")
        self.fails("0 passed, 3 failed", "the first blocks", "ci/live", "1", "0", "heat")

    def test_no_talk(self):
        talker(self.place)
        self.fails("0 passed, 1 failed", "nothing was tried", "ci/live", "0", "0", "heat")

    def test_a_program_that_is_not_modelled_or_not_built(self):
        self.fails("0 passed, 1 failed", "no modelled program", "ci/live", "1", "0", "other")
        self.place.script("bin/rt", "exit 1")
        self.fails("0 passed, 1 failed", "was not built", "ci/live", "1", "0", "heat")
