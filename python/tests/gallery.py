"""The kernels of python/examples/kernels, their native forms, and the table of docs/gallery.md."""

from __future__ import annotations

import glob
import json
import os
import re
import tomllib
from dataclasses import replace
from functools import cache
from typing import Any

from stored import ROOT, text_of

from fannulavo import Input, Kernel, Report, Session
from fannulavo.kernels.files import KernelFile

FOLDER = f"{ROOT}/python/examples/kernels"
NAMES = sorted(os.path.basename(path).removesuffix(".py") for path in glob.glob(f"{FOLDER}/*.py"))
ROW = re.compile(r"^\| `(\w+)\.py` \|(.*)\|$", re.M)

# The native form of a kernel: its tool, its name, and a document of its input.
NATIVE = {
    "broadcast": ("bsp_tool", "broadcast", "examples/broadcast.toml"),
    "heat": ("heat", "heat", "crates/heat/stdin"),
    "list_ranking": ("bsp_tool", "rank", "examples/rank.toml"),
    "matrix_vector": ("bsp_tool", "matvec", "examples/matvec.toml"),
    "odd_even_sort": ("oddeven", "oddeven", "crates/oddeven/stdin"),
    "prefix_sums": ("bsp_tool", "prefix", "examples/prefix.toml"),
    "sample_sort": ("samplesort", "samplesort", "crates/samplesort/stdin"),
}
BATCHES = [[["word", 1, 0, 2]], [["word", 0, 1, 9]]]


@cache
def file_of(name: str) -> KernelFile:
    return KernelFile.read(f"{FOLDER}/{name}.py")


def printed(report: Report) -> list[int]:
    """All words that are printed, process by process."""
    return [word for process in sorted(report.lines) for line in report.lines[process] for word in line]


def expected(name: str, given: dict[str, Any]) -> list[int]:
    """The words that plain Python has."""
    return file_of(name).names["expected"](given["memory"], given.get("args"))  # type: ignore[no-any-return]


def edited(name: str, tool: list[str]) -> tuple[Report, Report, Input]:
    """The report of a kernel's example, that after its edit, and the edited input."""
    file = file_of(name)
    with Session(file.program, tool=tool, why=True, update_cost=True, **file.names["example"]) as session:
        return session.report, session.apply(file.names["edits"]), Input.read(session.document())


def taken_again(program: Kernel, before: Input, after: Input) -> list[tuple[int, int]]:
    """The turns of a run that the run before does not serve: the simulation, and the words at which turns look."""
    old, new = program.trace(before), program.trace(after)
    places = []
    for superstep, taken in enumerate(new.supersteps):
        for process, seen in enumerate(taken.seen if taken.taken else ()):
            is_there = superstep < len(old.supersteps) and old.supersteps[superstep].taken
            was = old.seen(superstep, process) if is_there else None
            if was is None or replace(seen, memory=was.memory) != was:
                places.append((superstep, process))
            elif any(seen.memory[address] != was.memory[address] for address in program.looks(was)):
                places.append((superstep, process))
    return places


def told(name: str, opened: Report, report: Report) -> str:
    """The row of a kernel on the page: lines, instructions, processes, turns, turns again, costs."""
    lines = len(text_of(f"{FOLDER}/{name}.py").splitlines())
    words = [lines, len(file_of(name).program.code), len(opened.memories), opened.executed_count, report.executed_count]
    assert report.update_cost is not None
    return " | ".join(map(str, [*words, report.update_cost.total, report.total]))


def told_rows() -> dict[str, str]:
    return {name: row.strip() for name, row in ROW.findall(text_of(f"{ROOT}/docs/gallery.md"))}


def both_documents(name: str) -> tuple[bytes, bytes]:
    """A document of the native form of a kernel, and one of the kernel, with the same input and batches."""
    _, program, path = NATIVE[name]
    keys = tomllib.loads(text_of(f"{ROOT}/{path}"))
    batches = keys.get("batches", BATCHES)
    if name == "sample_sort":  # with room for the words that come, and with an argument for each process
        counts = [3, 2, 4, 3]
        keys["memory"] = [row[:m] + [0] * 40 for row, m in zip(keys["memory"], counts)]
        keys["args"], batches = [[m] for m in counts], batches[:1] + BATCHES
    given = Input.of(*(keys.get(key) for key in ("memory", "args", "limit", "g", "l")))
    rest = f"{given.text()}batches = {json.dumps(batches)}\n"
    return f'program = "{program}"\n{rest}'.encode(), f"{file_of(name).program.keys()}{rest}".encode()
