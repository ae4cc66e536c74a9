"""Shows how programs with other limits are built and run, and which limits are refused: tests of ci/test_gate."""
import os
import shutil
import tempfile

from building_tests import DOCUMENT, TRIED, Building
from limits import SOURCE, limits_in


class Limits(Building):
    """A program with other limits. Copies are kept below a folder `cache`."""

    def setUp(self):
        super().setUp()
        self.cache = tempfile.mkdtemp(prefix="cache-")
        self.addCleanup(shutil.rmtree, self.cache)
        self.copy = f"{self.cache}/fannulavo/limits/few"
        self.place.script("shell", f"cd {self.place.root}", 'eval "$1"')
        self.place.write("document", DOCUMENT)
        self.place.write("crates/low/src/lib.rt")
        self.rt("cat > out/tool", "chmod +x out/tool")

    def with_limits(self, text, *words):
        """Runs a command with --limits and a file of this text."""
        self.place.write("few.toml", text.encode())
        command, *rest = words
        return self.place.run("shell", f"./{command} --limits few.toml {' '.join(rest)} < document", XDG_CACHE_HOME=self.cache)

    def text(self, path):
        with open(path, encoding="utf-8") as file:
            return file.read()

    def test_a_copy_has_the_numbers_and_the_program(self):
        before = self.text(f"{self.place.root}/{SOURCE}")
        self.place.commit()
        status, lines = self.with_limits("MOST_PROCESSES = 3\nMOST_MEMORY_WORDS = 0x10\n", "build", "tool")
        self.assertEqual((status, lines[-1]), (0, f"build: {self.copy}/crates/tool/out/tool is proved and built"))
        source = self.text(f"{self.copy}/{SOURCE}")
        self.assertEqual(limits_in(source), {**limits_in(before), "MOST_PROCESSES": 3, "MOST_MEMORY_WORDS": 16})
        self.assertIn('pub const NAME: &str = "few";', source)
        self.assertEqual(self.text(f"{self.place.root}/{SOURCE}"), before)
        self.assertFalse(os.path.exists(f"{self.place.root}/crates/tool/out"))

    def test_a_second_build_goes_on_from_the_first(self):
        self.place.commit()
        self.place.write("crates/low/out/proof", b"here")
        self.with_limits("MOST_PROCESSES = 3", "build", "tool")
        self.assertEqual(self.text(f"{self.copy}/crates/low/out/proof"), "here")
        with open(f"{self.copy}/crates/low/out/proof", "w", encoding="utf-8") as file:
            file.write("there")
        unchanged = os.stat(f"{self.copy}/crates/low/src/lib.rt").st_mtime_ns
        os.remove(f"{self.place.root}/crates/tool/src/main.rt")
        self.place.write("crates/tool/src/main.rt", b"new")
        self.place.write("crates/tool/src/kernel.rt")
        self.assertEqual(self.with_limits("MOST_PROCESSES = 4", "build", "tool")[0], 0)
        self.assertEqual(self.text(f"{self.copy}/crates/low/out/proof"), "there")
        self.assertEqual(os.stat(f"{self.copy}/crates/low/src/lib.rt").st_mtime_ns, unchanged)
        self.assertEqual(self.text(f"{self.copy}/crates/tool/src/main.rt"), "new")
        self.assertEqual(limits_in(self.text(f"{self.copy}/{SOURCE}"))["MOST_PROCESSES"], 4)
        os.remove(f"{self.place.root}/crates/tool/src/kernel.rt")
        self.with_limits("MOST_PROCESSES = 4", "build", "tool")
        self.assertFalse(os.path.exists(f"{self.copy}/crates/tool/src/kernel.rt"))

    def test_a_wrong_number_is_told_with_its_line(self):
        self.place.commit()
        self.rt("exit 7")
        number = "has to be a number from 1 to 4_294_967_295"
        wrong = {
            "MOST_PROCESSES = 0": f"line 1: MOST_PROCESSES {number}",
            "# Few.\n\nMOST_TAG_WORDS = -1": f"line 3: MOST_TAG_WORDS {number}",
            "MOST_LINES = 8\nMOST_SLOTS = 4294967296": f"line 2: MOST_SLOTS {number}",
            "MOST_LINES = 1.5": f"line 1: MOST_LINES {number}",
            "MOST_LINES = true": f"line 1: MOST_LINES {number}",
            "MOST_WORDS = 8": f"line 1: MOST_WORDS is no limit; {SOURCE} names them",
            "MOST_LINES = 8\n[MOST_SLOTS]\nall = 8": f"line 2: MOST_SLOTS {number}",
            "MOST_LINES = 8\n\nMOST_SLOTS": "line 3: this is no TOML: Expected '=' after a key in a key/value pair",
            "MOST_LINES = 8\nMOST_LINES = 8": "line 2: this is no TOML: Cannot overwrite a value",
            "MOST_LINES = [\n": "line 1: this is no TOML: Invalid value",
        }
        for text, said in wrong.items():
            for command in ("build", "run"):
                with self.subTest(text=text, command=command):
                    status, lines = self.with_limits(text, command, "tool")
                    self.assertEqual((status, lines[-1].partition(": ")[2]), (2, f"few.toml, {said}"))
        self.assertFalse(os.path.exists(self.copy))

    def test_no_file(self):
        status, lines = self.place.run("build", "--limits", f"{self.place.root}/few.toml", "tool")
        self.assertEqual((status, len(lines)), (2, 1))
        self.assertIn("No such file", lines[0])
        status, lines = self.place.run("build", "--limits")
        self.assertEqual((status, lines[2]), (2, "usage: ./build [--limits FILE] [CRATE]       bsp_tool, where no crate is named"))

    def test_numbers_that_do_not_go_together(self):
        self.place.commit()
        self.rt("exit 7")
        wrong = {
            "MOST_PROCESSES = 65": "A set of processes has to fit into the bits of a word. Lower a number: MOST_PROCESSES = 64 is enough.",
            "MOST_SUPERSTEPS = 1_048_576": "The total cost of a run has to be below 2^64. Lower a number: ",
            "MOST_SUPERSTEPS = 4_294_967_295\nMOST_REQUESTS = 4_294_967_295\nMOST_MEMORY_WORDS = 4_294_967_295": "The total cost of a run has to be below 2^64. Change "
            "HIGHEST_PRICE, MOST_MEMORY_WORDS, MOST_PAYLOAD_WORDS, MOST_PROCESSES, MOST_REQUESTS, MOST_SUPERSTEPS, MOST_TAG_WORDS, MOST_WORK.",
        }
        for text, said in wrong.items():
            with self.subTest(text=text):
                status, lines = self.with_limits(text, "build", "tool")
                self.assertEqual((status, len(lines)), (2, 1), lines)
                self.assertTrue(lines[0].startswith(f"build: few.toml: {said}"), lines)

    def test_a_number_that_is_said_to_be_enough_is(self):
        self.place.commit()
        text = "MOST_SUPERSTEPS = 1_048_576\n"
        _, lines = self.with_limits(text, "build", "tool")
        (price,) = (word for word in lines[0].split(" is enough")[0].split(" or ") if "HIGHEST_PRICE" in word)
        price = int(price.split()[-1])
        self.assertEqual(self.with_limits(f"{text}HIGHEST_PRICE = {price}", "build", "tool")[0], 0)
        self.assertEqual(self.with_limits(f"{text}HIGHEST_PRICE = {price + 1}", "build", "tool")[0], 2)

    def test_a_fact_of_a_crate_is_asked_of_its_program_alone(self):
        fact = b"// A block has to fit\n// into a line.\nconst _: () = prove!(MOST_LINES <= MOST_LINE_WORDS as usize);\n"
        self.place.write("crates/tool/src/kernel.rt", fact)
        self.place.write("crates/other/src/main.rt")
        self.place.write("crates/other/stdin")
        self.place.write("crates.txt", b"low:\ntool: low\nother: low\n")
        self.place.commit()
        said = f"A block has to fit into a line. Lower a number: MOST_LINES = {limits_in(self.text(f'{self.place.root}/{SOURCE}'))['MOST_LINE_WORDS']} is enough."
        self.assertEqual(self.with_limits("MOST_LINES = 1_000", "build", "tool"), (2, [f"build: few.toml: {said}"]))
        self.rt("cat > out/other")
        self.assertEqual(self.with_limits("MOST_LINES = 1_000", "build", "other")[0], 0)

    def test_the_program_of_the_copy_is_run(self):
        self.place.commit()
        self.with_limits("MOST_LINES = 8", "build", "tool")
        with open(f"{self.copy}/crates/tool/out/tool", "w", encoding="utf-8") as file:
            file.write('#!/bin/sh\necho "there $*"; cat\n')
        os.utime(f"{self.copy}/crates/tool/out/tool", (2**33, 2**33))
        self.assertEqual(self.with_limits("MOST_LINES = 8", "run", "tool", "--places"), (0, ["there --places", DOCUMENT.decode().strip()]))

    def test_a_program_that_was_never_built_is_compiled_in_the_copy(self):
        self.place.commit()
        self.rt("grep -c 'NAME.*few' ../../crates/bsp_model/src/limits.rt", f"echo '{TRIED.format(0)}' >&2")
        status, lines = self.with_limits("MOST_LINES = 8", "run", "tool")
        self.assertEqual((status, lines[-1]), (0, "1"), lines)
        self.assertIn("; ./build --limits few.toml tool proves it", lines[0])


class SmallLimits(Building):
    """The crates that are proved with small numbers."""

    def setUp(self):
        super().setUp()
        self.cache = tempfile.mkdtemp(prefix="cache-")
        self.addCleanup(shutil.rmtree, self.cache)
        self.place.write("crates.txt", b"bsp_model:\nbsp_table: bsp_model\nbsp_step: bsp_model bsp_table\n")
        for crate in ("bsp_table", "bsp_step"):
            self.place.write(f"crates/{crate}/src/lib.rt")
        self.place.write("limits/small.toml", b"MOST_PROCESSES = 3\n")

    def small_limits(self):
        self.place.commit()
        return self.place.run("ci/small_limits", XDG_CACHE_HOME=self.cache)

    def test_each_crate_is_proved_in_the_copy(self):
        self.rt('[ "$*" = check ] || exit 7', "grep -q 'NAME.*small' ../bsp_model/src/limits.rt")
        self.assertEqual(self.small_limits(), (0, ["3 passed, 0 failed"]))

    def test_a_numeral_in_a_proof(self):
        """It is proved with the numbers of this profile alone."""
        self.place.write("crates/bsp_step/proofs/Words.antt", b"small : n <= 64\n")
        self.rt("! grep -rq 'n <= 64' proofs 2> /dev/null || { echo 'Words.antt:1: no proof'; exit 1; }")
        wanted = ["Words.antt:1: no proof", "small_limits: bsp_step is not proved with the numbers of limits/small.toml", "2 passed, 1 failed"]
        status, lines = self.small_limits()
        self.assertEqual((status, lines[0], lines[-1]), (1, wanted[0], wanted[-1]))
        self.assertIn("bsp_step is not proved with the numbers of limits/small.toml", lines[1])

    def test_numbers_that_can_not_be(self):
        self.place.write("limits/small.toml", b"MOST_PROCESSES = 0\n")
        self.rt(":")
        status, lines = self.small_limits()
        self.assertEqual((status, lines[-1]), (1, "0 passed, 1 failed"))
        self.assertIn("limits/small.toml, line 1: MOST_PROCESSES has to be a number", lines[0])

    def test_no_file(self):
        os.remove(f"{self.place.root}/limits/small.toml")
        self.rt(":")
        self.assertEqual(self.small_limits()[1][-1], "0 passed, 1 failed")
