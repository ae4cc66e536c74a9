"""Files with kernels, and the commands of the shell that work on them."""

from __future__ import annotations

import random
import runpy
from collections.abc import Iterator
from copy import copy
from dataclasses import dataclass
from typing import Any

from fannulavo.errors import Error, ToolNotBuilt
from fannulavo.kernels.checking import compare_runs, compare_views, drawn_inputs
from fannulavo.kernels.inputs import Input
from fannulavo.kernels.kernel import Kernel
from fannulavo.kernels.running import words_of


_BUDGET = 100_000  # of a turn of a drawn input, which may loop without an end


class NoKernel(Error):
    """A file has no kernel, or several of which none is named."""


@dataclass(frozen=True)
class KernelFile:
    """A kernel, and what else its file has: `example`, the keywords of an input, `edits`, a batch of edits of it, and
    `drawn`, a function that draws such keywords by a random.Random."""

    program: Kernel
    names: dict[str, Any]

    @classmethod
    def read(cls, path: str, name: str | None = None) -> KernelFile:
        """The kernel of a file; where it has several, that with a name. `NoKernel` where there is none."""
        names = runpy.run_path(path)
        kernels = {each.name: each for each in names.values() if isinstance(each, Kernel)}
        wanted = [kernels[name]] if name in kernels else [] if name else list(kernels.values())
        if len(wanted) != 1:
            told = "mark a function with @kernel"
            if kernels:
                told = f"its kernels are {', '.join(sorted(kernels))}: name one"
            raise NoKernel(f"{path}: {told}")
        return cls(wanted[0], names)

    @property
    def example(self) -> Input | None:
        given = self.names.get("example")
        return None if given is None else Input.of(**given)

    def document(self) -> str:
        """The kernel, with the example and its edits where the file has them."""
        edits = self.names.get("edits")
        input_text = self.example.text([edits] if edits else ()) if self.example else ""
        return self.program.keys() + input_text

    def inputs(self, count: int, seed: int = 0) -> Iterator[Input]:
        """The example, and drawn inputs."""
        rng = random.Random(seed)
        if self.example:
            yield self.example
        if "drawn" in self.names:
            yield from (Input.of(**self.names["drawn"](rng)) for _ in range(count))
        else:
            yield from drawn_inputs(rng, count)

    def check(self) -> Iterator[str]:
        """Compares all that can be compared, and tells what was."""
        name, program = self.program.name, copy(self.program)
        program.budget = min(program.budget, _BUDGET)
        views = compare_views(program, self.inputs(2))
        yield f"{name}: at {views} views the function and the instructions leave the same turns"
        try:
            tool: list[str] | None = words_of(None)
            way = "simulation, instructions and tool"
        except ToolNotBuilt as error:
            tool, way = None, f"simulation and instructions (no tool: {error})"
        runs = compare_runs(program, self.inputs(5), tool, tool is not None)
        yield f"{name}: {runs} runs have the same reports by {way}"
