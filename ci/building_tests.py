"""Shows how programs are built and run without being built: tests of ci/test_gate."""
import os

from place import InAPlace

DOCUMENT = b"limit = 1\n"
TRIED = "run=ended status={} runners=1 races=unchecked proved=no"


class Building(InAPlace):
    """A program `tool` over a library `low`, of which nothing is built."""

    def setUp(self):
        super().setUp()
        self.place.write("crates.txt", b"low:\ntool: low\n")
        self.place.write("crates/tool/src/main.rt")
        self.place.write("crates/tool/stdin", DOCUMENT)
        self.place.write("ci/sizes.json", b'{"low": 30, "tool": 10}')

    def rt(self, *lines):
        self.place.script("bin/rt", *lines)

    def run_on(self, *words):
        """Runs the program on a document, and answers its status, its lines and those of standard error."""
        self.place.write("document", DOCUMENT)
        status, lines = self.place.run("shell", f'./run {" ".join(words)} < document 2> error')
        with open(f"{self.place.root}/error", encoding="utf-8") as file:
            return status, lines, file.read().splitlines()


class Build(Building):
    LOG = ["so far: 0 of 4 functions checked", "rt: chose --jobs 4 for low", "so far: 3 of 4 functions checked", "fn low::one: proved", "checked tool::main, 1 of 1"]

    def test_each_crate_has_a_line(self):
        self.rt(*(f"echo '{line}'" for line in self.LOG), "cat > out/tool")
        status, lines = self.place.run("build", "tool")
        wanted = [
            "low, crate 1 of 2: 0 of ? functions proved, 0 minutes so far",
            "tool, crate 2 of 2: 0 of ? functions proved, 0 minutes so far",
            "build: crates/tool/out/tool is proved and built",
        ]
        self.assertEqual((status, lines), (0, wanted))

    def test_the_log_is_named_where_it_fails(self):
        self.rt(f"echo '{self.LOG[1]}'", "echo 'no proof'", "exit 1")
        status, lines = self.place.run("build", "tool")
        self.assertEqual((status, lines[-1]), (1, "build: tool was not built; crates/tool/out/build.log says why"))
        with open(f"{self.place.root}/crates/tool/out/build.log", encoding="utf-8") as file:
            self.assertEqual(file.read().splitlines()[-1], "no proof")

    def test_no_program(self):
        self.assertEqual(self.place.run("build", "low")[0], 2)
        self.assertEqual(self.place.run("build", "tool", "low")[0], 2)


class Run(Building):
    def setUp(self):
        super().setUp()
        self.place.script("shell", f"cd {self.place.root}", 'eval "$1"')

    def test_a_program_that_was_never_built_is_compiled_without_its_proof(self):
        self.rt('[ "$*" = "try -- --places" ] || exit 7', "cat", "echo 'fault J2' >&2", f"echo '{TRIED.format(3)}' >&2", "exit 3")
        status, lines, error = self.run_on("tool", "--places")
        self.assertEqual((status, lines, error[1:]), (3, [DOCUMENT.decode().strip()], ["fault J2"]))
        self.assertIn("./build tool proves it", error[0])

    def test_no_answer_without_a_proof(self):
        self.rt("echo 'too long' >&2", "exit 6")
        status, lines, error = self.run_on("tool")
        self.assertEqual((status, lines, error[1]), (1, [], "too long"))
        self.assertIn("./build tool makes the proved program", error[2])

    def test_a_live_session_wants_the_proved_program(self):
        status, lines, error = self.run_on("tool", "--follow", "document")
        self.assertEqual((status, lines), (2, []))
        self.assertIn("./build tool", error[0])

    def test_a_built_program_is_run(self):
        self.place.script("crates/tool/out/tool", "cat")
        os.utime(f"{self.place.root}/crates/tool/out/tool", (2**33, 2**33))
        self.assertEqual(self.run_on("tool"), (0, [DOCUMENT.decode().strip()], []))


class Try(Building):
    """A kernel `tool` over a library `low`, and a file that the kernel does not name."""

    def setUp(self):
        super().setUp()
        self.place.script("shell", f"cd {self.place.root}", 'eval "$1"')
        self.place.write("crates.txt", b"low:\nother:\ntool: other low\n")
        for crate in ("low", "other"):
            self.place.write(f"crates/{crate}/src/lib.rt")
        self.place.write("crates/tool/src/kernel.rt", b"use crate::parts::Part;\nuse low::Low;\n\nimpl Program for Tool {\n")
        self.place.write("crates/tool/src/parts.rt", b"ghost use Rattle.other.specs;\n")
        self.place.write("crates/tool/src/rest.rt", b"use crate::kernel::Tool;\n")
        self.place.write("document", DOCUMENT)

    def try_it(self, *words):
        return self.place.run("shell", f'./try {" ".join(words)} < document')

    def test_the_kernel_and_what_it_names_is_compiled_over_the_small_library(self):
        self.rt("cat src/main.rt", "cat", "sort ../../crates.txt", f"echo '{TRIED.format(3)}' >&2")
        made = ["#![tactic(auto)]", "", "mod kernel;", "mod parts;", "", "fn main(rt: HostRuntime) -> std::process::ExitCode {"]
        made += ["    quick::run_quick(&rt, &kernel::Tool)", "}", "limit = 1", "low:", "quick: bsp_gate bsp_model bsp_step bsp_run bsp_scratch", "tool: quick low"]
        self.assertEqual(self.try_it("tool"), (3, made))

    def test_another_program(self):
        self.rt("cat src/main.rt", f"echo '{TRIED.format(0)}' >&2")
        status, lines = self.try_it("tool", "parts::Part")
        self.assertEqual((status, lines[2]), (0, "mod parts;"))
        self.assertIn("    quick::run_quick(&rt, &parts::Part)", lines)

    def test_no_kernel(self):
        self.assertEqual(self.try_it("low"), (2, ["try: low: 0 types of it are a Program; name one as MODULE::TYPE"]))
        self.assertEqual(self.try_it("tool", "kernels::Tool"), (2, ["try: tool: kernels::Tool is in no module of it"]))
        self.assertEqual(self.try_it("nothing")[0], 2)

    def test_no_answer(self):
        self.rt("echo 'src/kernel.rt:1:1: error' >&2", "exit 1")
        self.assertEqual(self.try_it("tool"), (1, ["src/kernel.rt:1:1: error", "try: there is no answer"]))

    def test_the_stored_block_is_compared(self):
        self.rt("echo 'run 0'", "echo 'total 1'", f"echo '{TRIED.format(0)}' >&2")
        self.place.write("crates/tool/stdin", DOCUMENT)
        self.place.write("crates/tool/stdout", b"run 0\ntotal 1\nexecuted 1 redelivered 0\nrun 1\n")
        self.assertEqual(self.place.run("ci/tried", "tool"), (0, ["1 passed, 0 failed"]))
        self.place.write("crates/tool/stdout", b"run 0\ntotal 2\nexecuted 1 redelivered 0\nrun 1\n")
        self.assertEqual(self.place.run("ci/tried", "tool"), (1, ["tried: tool: another block than the stored one", "0 passed, 1 failed"]))
