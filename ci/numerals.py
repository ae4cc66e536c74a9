"""Numerals that are a limit, or one more, where the limit's name has to stand: crates/bsp_model/src/limits.rt alone has the numbers."""
from __future__ import annotations

import glob
import os
import re

from limits import SOURCE, constants_of

FILES = ("crates/*/src/**/*.rt", "crates/*/specs/**/*.antt", "crates/*/proofs/**/*.antt", "ci/*.py", "ci/modelled/*.py", "python/fannulavo/**/*.py")
TESTS = re.compile(r"crates/\w+/src/tests(?:/|\.rt)|crates/(?:bsp_tests|engine_tests|pool_tests)/|ci/(?:\w+_tests|place|numerals)\.py")
NUMERAL = re.compile(r"(?<![\w.,$])(\d{1,3}(?:,\d{3})+|\d[\d_]*)(?![\w,]*\d)(?!\w)")

# Numerals that mean something else: of the files whose paths match, the places of the lines that match.
OTHERS = (
    # bits of a word, and the powers of two that they make
    (r"", r"2 ?(?:\^|\*\*) ?64\b|\b64[- ]bits?\b|range\(64\)|ParsesUnsigned 64|digits_from 64|pow_below 6 64|1 << 16"),
    (r"bsp_model/(?:src|proofs)/process_(?:set|numbers)", r"\b(?:16|17|64)\b"),
    (r"bsp_model/proofs/SetBits", r"p < 64"),
    # words of a page
    (r"bsp_model/(?:src/(?:page|memory)\.rt|specs/Inside/Pages|proofs/(?:Pages|Writes|Rests|Changes|WrittenMemories|paging|memor))", r"\b64\b"),
    (r"bsp_(?:step/proofs/WhereLookedAt|deliver/proofs/ReadWords|causes/proofs/OtherWords|text/proofs/lines/push_memory_line)", r"\b64\b"),
    # the distances of the bundled programs that double them
    (r"bsp_right/proofs/Prefix(?:Sums|Supersteps)", r"< 64 →|64 < n"),
    # numbers that were measured, and sizes of pieces in which words are read
    (r"bsp_model/src/(?:workspace|seq|share)|bsp_incr/src/compare/looking|bsp_text/src/lines|heat/src/kernel", r"\b(?:16|17|64)\b"),
    (r"bsp_engine/src/(?:flow|conversation)", r"CHUNK: usize = 4096"),
    # units of time and of digits
    (r"bsp_engine/src/progress", r"as_nanos\(\) / 1_000_000"),
    (r"bsp_engine/src/help_text", r"^    1_000_000,$"),
    # the limit of the documents that the help shows
    (r"src/main\.rt", r"^  limit = 16$"),
    # what the help says of the most workers, which are proved to be so many
    (r"bsp_options/src/options", r"1 to 16\"|MOST_WORKERS == 16"),
    # a pool of threads, which knows of no limits
    (r"crates/bsp_(?:pool|crew)/", r"\b16\b|\b4294967296\b|\b1_000_000\b"),
    # registers, and the bits of a word that is shifted
    (r"bsp_kernels?/|ci/modelled/(?:kernels|machines)", r"\b(?:64|255|256)\b"),
    # the same, and the limits of a simulated run, which a test compares with the source
    (r"python/fannulavo/kernels/(?:code|machine)", r"\b(?:64|256)\b"),
    (r"python/fannulavo/kernels/limits", r"^MOST_\w+ = .*|^HIGHEST_\w+ = .*"),
    # processes and cells that a picture has room for
    (r"python/fannulavo/(?:pictures|traces)", r"\b(?:16|64)\b"),
)


def numbers_of(root: str) -> set[int]:
    """The limits and what follows from them, and each with one more."""
    values = set(constants_of(root).values())
    return values | {value + 1 for value in values}


def strays_in(path: str, text: str, numbers: set[int]) -> list[str]:
    """The lines of a file that have such a numeral."""
    meanings = [re.compile(line) for where, line in OTHERS if re.search(where, path)]
    found = []
    for at, line in enumerate(text.splitlines(), 1):
        rest = line
        for meaning in meanings:
            rest = meaning.sub(" ", rest)
        if any(int(re.sub("[_,]", "", digits)) in numbers for digits in NUMERAL.findall(rest)):
            found.append(f"{path}:{at}: {line.strip()}")
    return found


def strays_below(root: str) -> list[str]:
    numbers, found = numbers_of(root), []
    for pattern in FILES:
        for path in sorted(glob.glob(f"{root}/{pattern}", recursive=True)):
            short = os.path.relpath(path, root)
            if os.path.isfile(path) and short != SOURCE and not TESTS.match(short):
                with open(path, encoding="utf-8") as file:
                    found += strays_in(short, file.read(), numbers)
    return found
