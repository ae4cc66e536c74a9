"""Shows that numerals of limits are found, and that the page of the limits has the numbers: tests of ci/test_gate."""
import re

from cases import ROOT
from limits import constants_of, read_limits
from numerals import strays_below
from place import InAPlace


class Numerals(InAPlace):
    PLANTED = {
        "crates/low/src/lib.rt": "    if words.len() > 4_096 {",
        "crates/low/src/part/deep.rt": "/// At most 16,777,216 bytes are read.",
        "crates/low/specs/Low.antt": "pub few : length os ≤ 64",
        "crates/low/proofs/Low.antt": "    let small : n ≤ 65536 = omega arith in",
        "crates/bsp_model/proofs/Limits.antt": "most_words = 4112",
        "ci/more.py": 'call = ["print", *[1] * 65]',
        "python/fannulavo/session.py": "if not 1 <= workers <= 16:",
    }
    OTHER = {
        "crates/low/src/lib.rt": "    /// The sum, modulo 2^64, of words of 64 bits.",
        "crates/low/specs/Low.antt": "fits w = nat_lt w (2 ^ 64)",
        "crates/low/proofs/Low.antt": "    let half : n ≤ 32 = omega (arith, v64) in x.64y + 640 + 1_640",
        "crates/low/src/tests.rt": "    known(64, 4_096);",
        "crates/bsp_model/src/page.rt": "pub const WORDS_OF_A_PAGE: usize = 64;",
    }

    def test_no_limit_stands_elsewhere(self):
        self.assertEqual(strays_below(ROOT), [])

    def test_the_table_of_the_page_has_the_numbers(self):
        with open(f"{ROOT}/docs/formats.md", encoding="utf-8") as file:
            rows = re.findall(r"^\| `(\w+)` \| [^|]* \| ([0-9,]+) \| ([0-9,]+) \|$", file.read(), re.MULTILINE)
        told = {name: tuple(int(number.replace(",", "")) for number in numbers) for name, *numbers in rows}
        papers, large = constants_of(ROOT), read_limits(f"{ROOT}/limits/large.toml", ROOT, ())
        self.assertEqual(told.pop("MOST_MESSAGES"), (papers["MOST_MESSAGES"], large["MOST_REQUESTS"] * large["MOST_PROCESSES"]))
        self.assertEqual(told, {name: (papers[name], large[name]) for name in large})

    def test_a_planted_one_is_found(self):
        for path, line in self.PLANTED.items():
            with self.subTest(path=path):
                self.place.write(path, f"// first\n{line}\n".encode())
                self.assertEqual(strays_below(self.place.root), [f"{path}:2: {line.strip()}"])
                self.place.write(path)

    def test_one_that_means_something_else_is_left(self):
        for path, line in self.OTHER.items():
            self.place.write(path, f"{line}\n".encode())
        self.assertEqual(strays_below(self.place.root), [])
