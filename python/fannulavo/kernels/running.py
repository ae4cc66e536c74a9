"""Kernels and the tool bsp_kernel."""

from __future__ import annotations

import os
import shutil
import subprocess
from collections.abc import Sequence
from pathlib import Path
from typing import Any

from fannulavo.errors import KernelFaulted, ToolEnded, ToolNotBuilt, ToolWithoutKernels
from fannulavo.kernels.inputs import Input
from fannulavo.kernels.kernel import Kernel, document
from fannulavo.reading import read_report
from fannulavo.reports import Report

Command = str | os.PathLike[str] | Sequence[str | os.PathLike[str]]
BUILT = Path(__file__).resolve().parents[3] / "crates/bsp_kernel/out/bsp_kernel"
_KNOWS_NO_KERNELS = ("fault J2", "fault J4")  # of a document that has all keys of a kernel, and no further ones


def words_of(tool: Command | None) -> list[str]:
    """The words of a tool: those that are given, or the built one of this clone, or that of the path of commands."""
    if tool is not None:
        given = [tool] if isinstance(tool, (str, os.PathLike)) else tool
        words = [os.fspath(word) for word in given]
        if words and (shutil.which(words[0]) or os.path.isfile(words[0])):
            return words
        named = words[0] if words else ""
        raise ToolNotBuilt(f"there is no tool {named!r}: `./build bsp_kernel` builds one in a clone")
    found = str(BUILT) if BUILT.is_file() else shutil.which("bsp_kernel")
    if found is None:
        raise ToolNotBuilt("bsp_kernel is not built: `./build bsp_kernel` builds it; or hand in tool=PATH")
    return [found]


def without_kernels(ended: ToolEnded) -> ToolEnded:
    """The same exception, or that the tool knows no kernels."""
    if not ended.errors.startswith(_KNOWS_NO_KERNELS):
        return ended
    what = "the tool knows no kernels: hand in bsp_kernel, which `./build bsp_kernel` builds"
    return ToolWithoutKernels(what, ended.said, ended.errors, ended.status)


def check_faults(program: Kernel, given: Input, report: Report) -> None:
    """Raises `KernelFaulted` where a report tells of a fault. The simulation finds where the turns ended."""
    if report.status.kind in ("faulted", "syncfault"):
        raise KernelFaulted(report, program.trace(given).faulted)


def run(
    program: Kernel,
    memory: Any,
    args: Any = None,
    *,
    tool: Command | None = None,
    workers: int = 1,
    may_fault: bool = False,
    **rest: Any,
) -> Report:
    """The report of a run from scratch, by the tool. `rest` has the limit and the prices g and l. `KernelFaulted` where
    the run ends by a fault; with `may_fault` the report tells it."""
    given = memory if isinstance(memory, Input) else Input.of(memory, args, **rest)
    words = [*words_of(tool), "--scratch", "--workers", str(workers)]
    ended = subprocess.run(words, input=document(program, given).encode(), capture_output=True, check=False)
    said, errors = ended.stdout.decode(errors="replace"), ended.stderr.decode(errors="replace")
    if ended.returncode:
        raise without_kernels(ToolEnded("the tool has ended", said, errors, ended.returncode))
    report = read_report(said)[0]
    assert isinstance(report, Report)
    if not may_fault:
        check_faults(program, given, report)
    return report
