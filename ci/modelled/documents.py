"""The job that a document describes, or why it describes none."""
from __future__ import annotations

import math
import tomllib
from dataclasses import dataclass, field

from modelled.collectives import COLLECTIVES
from modelled.kernels import BUDGET, Kernel, is_code
from modelled.limits import HIGHEST_PRICE, MOST_ARGUMENTS, MOST_MEMORY_WORDS, MOST_PROCESSES, MOST_SUPERSTEPS
from modelled.programs import Broadcast, Heat, MatVec, OddEven, Prefix, Rank
from modelled.runs import Input
from modelled.sessions import Edit
from modelled.shapes import is_array_of, is_integer, is_string
from modelled.sorts import SampleSort
from modelled.turns import Program

DEEPEST_ARRAYS = 80  # arrays in one another that `toml` reads


class Refused(Exception):
    """A document that is no job, with its first fault."""


@dataclass(frozen=True)
class Job:
    program: Program
    input: Input
    batches: list[list[Edit]]


def has_large_integer(value) -> bool:
    if isinstance(value, dict):
        return any(has_large_integer(each) for each in value.values())
    if isinstance(value, list):
        return any(has_large_integer(each) for each in value)
    return type(value) is int and not -(2**63) <= value < 2**63


def depth(value) -> int:
    """How many arrays stand in one another."""
    return 1 + max(map(depth, value), default=0) if isinstance(value, list) else 0


def finite_float(text: str) -> float:
    """A float of a document. One that is too large for a float is none."""
    number = float(text)
    if math.isinf(number) and not text.endswith("inf"):
        raise ValueError(text)
    return number


def tree_of(document: bytes) -> dict:
    """The table that a document is: J1. A byte order mark before it counts for nothing."""
    try:
        tree = tomllib.loads(document.decode().removeprefix("\ufeff"), parse_float=finite_float)
    except (ValueError, RecursionError) as error:
        raise Refused("J1") from error
    if has_large_integer(tree) or any(depth(value) > DEEPEST_ARRAYS for value in tree.values()):
        raise Refused("J1")
    return tree


def is_edit(value) -> bool:
    counts = {"word": 3, "arg": 3, "limit": 1, "prices": 2}
    if not isinstance(value, list) or not value or not isinstance(value[0], str):
        return False
    return len(value) - 1 == counts.get(value[0]) and all(map(is_integer, value[1:]))


SHAPES = {
    "limit": is_integer,
    "g": is_integer,
    "l": is_integer,
    "memory": is_array_of(is_array_of(is_integer)),
    "args": is_array_of(is_array_of(is_integer)),
    "batches": is_array_of(is_array_of(is_edit)),
}


@dataclass(frozen=True)
class Catalogue:
    """What a tool reads at its own key and at others that may be absent, and the programs that are named at its key, if they are named."""

    key: str
    shape: object
    programs: dict[str, Program] = field(default_factory=dict)
    others: dict[str, object] = field(default_factory=dict)

    def program(self, tree: dict) -> Program:
        value = tree[self.key]
        if self.key == "kernel":
            return Kernel(value, tree.get("constants", []), tree.get("budget", BUDGET))
        if value not in self.programs:
            raise Refused("J5")
        return self.programs[value]


BUNDLED = {"broadcast": Broadcast(), "prefix": Prefix(), "matvec": MatVec(), "rank": Rank()}
TOOLS = {
    "bsp_tool": Catalogue("program", is_string, BUNDLED),
    "heat": Catalogue("program", is_string, {"heat": Heat()}),
    "oddeven": Catalogue("program", is_string, {"oddeven": OddEven()}),
    "samplesort": Catalogue("program", is_string, {"samplesort": SampleSort()}),
    "collectives": Catalogue("program", is_string, COLLECTIVES),
    "bsp_kernel": Catalogue("kernel", is_code, others={"constants": is_array_of(is_integer), "budget": is_integer}),
}


def input_fault(tree: dict) -> str | None:
    memories, args = tree["memory"], tree.get("args", [[]] * len(tree["memory"]))
    if not memories:
        return "I1"
    if len(memories) > MOST_PROCESSES:
        return "I2"
    if len(args) != len(memories):
        return "I3"
    if any(len(memory) > MOST_MEMORY_WORDS for memory in memories):
        return "I4"
    if any(len(words) > MOST_ARGUMENTS for words in args):
        return "I5"
    if not 1 <= tree["limit"] <= MOST_SUPERSTEPS:
        return "I6"
    if not (0 <= tree["g"] <= HIGHEST_PRICE and 0 <= tree["l"] <= HIGHEST_PRICE):
        return "I7"
    return None


def has_negative(value) -> bool:
    return any(map(has_negative, value)) if isinstance(value, list) else type(value) is int and value < 0


def job_of(catalogue: Catalogue, document: bytes) -> Job:
    """The job that a document describes, or its first fault, J1 to J7."""
    tree = tree_of(document)
    if not {catalogue.key, "limit", "g", "l", "memory"} <= tree.keys():
        raise Refused("J2")
    shapes = {catalogue.key: catalogue.shape, **catalogue.others, **SHAPES}
    if not all(shape(tree[key]) for key, shape in shapes.items() if key in tree):
        raise Refused("J3")
    if not tree.keys() <= shapes.keys():
        raise Refused("J4")
    program = catalogue.program(tree)
    fault = input_fault(tree)
    if fault:
        raise Refused(f"J6 {fault}")
    if any(has_negative(tree.get(key)) for key in (catalogue.key, *catalogue.others, "memory", "args", "batches")):
        raise Refused("J7")
    memories = tuple(map(tuple, tree["memory"]))
    args = tuple(map(tuple, tree.get("args", [[]] * len(memories))))
    batches = [[Edit(part, numbers) for part, *numbers in batch] for batch in tree.get("batches", [])]
    return Job(program, Input(memories, args, tree["limit"], tree["g"], tree["l"]), batches)
