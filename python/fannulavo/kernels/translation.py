"""The translation of a function to instructions."""

from __future__ import annotations

from collections.abc import Iterable, Mapping
from dataclasses import dataclass

from fannulavo.kernels.code import Instruction, Origin
from fannulavo.kernels.frames import Frame
from fannulavo.kernels.source import Source, stored_names
from fannulavo.kernels.statements import Statements


@dataclass(frozen=True)
class Translated:
    """Instructions, with the line that each comes from, and the helpers whose code is among them."""

    code: tuple[Instruction, ...]
    origins: tuple[Origin, ...]
    constants: tuple[int, ...]
    numbers: Mapping[int, int]
    """The numbers that have a register of their own."""
    helpers: tuple[Source, ...]


def _translation(source: Source, numbers: Iterable[int]) -> Statements:
    translation = Statements(source, numbers)
    names = source.parameters()
    stored = list(stored_names(source.definition.body))
    frame = Frame(source, names[0] if names else None, {}, frozenset(), is_kernel=True)
    translation.frames.append(frame)
    if len(names) != 1:
        raise translation.refusal(source.definition, "a kernel has one parameter, its context", "write `def NAME(p):`")
    if frame.context in stored:
        why = f"the kernel sets {frame.context}, its context"
        raise translation.refusal(source.definition, why, "set a name of its own")
    for name in stored:
        frame.registers[name] = translation.code.fresh()
    translation.statements(source.definition.body)
    return translation


def translated(source: Source) -> Translated:
    """The instructions of a function. A `KernelError` where it is outside the part of Python that kernels have.

    The numbers of its loops are found first. Then each of them has its register in all lines, also above the loops.
    """
    numbers = _translation(source, ()).code.numbers
    translation = _translation(source, numbers)
    code, origins = translation.code.finished(translation.first)
    made = translation.code
    return Translated(code, origins, tuple(made.constants), made.numbers, tuple(translation.helpers.values()))
