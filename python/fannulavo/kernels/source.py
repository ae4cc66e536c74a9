"""The text of a function, and refusals that point into it."""

from __future__ import annotations

import ast
import inspect
import textwrap
from collections.abc import Callable, Iterator
from types import FunctionType
from typing import Any

from fannulavo.errors import KernelError, NotInKernels


class Source:
    """The text of a function, read from its file, and what stands around it."""

    def __init__(self, function: Callable[..., Any]):
        if not isinstance(function, FunctionType):
            raise TypeError(f"{function!r} is no function: mark a `def` with @kernel")
        try:
            lines, first = inspect.getsourcelines(function)
        except OSError:
            raise TypeError(f"the text of {function.__name__} is not at hand: write the kernel in a file") from None
        self.function = function
        self.file = inspect.getsourcefile(function) or function.__code__.co_filename
        self.first = first
        self._lines = [line.rstrip("\n") for line in lines]
        self._indent = len(lines[0]) - len(lines[0].lstrip())
        self._text = "\n" * (first - 1) + textwrap.dedent("".join(lines))
        self.definition = self.parsed()
        self.nodes = list(ast.walk(self.definition))

    def parsed(self) -> ast.FunctionDef:
        """The tree of the text, made anew."""
        definition = ast.parse(self._text).body[0]
        if not isinstance(definition, ast.FunctionDef):
            raise self.refusal(NotInKernels, definition, "this is no function", "write it as `def NAME(p):`")
        return definition

    def text_at(self, line: int) -> str:
        """The text of a line, without the spaces around it."""
        return self._lines[line - self.first].strip() if 0 <= line - self.first < len(self._lines) else ""

    def refusal(self, kind: type[KernelError], node: ast.AST, why: str, instead: str) -> KernelError:
        """What is raised of a part of the text."""
        line = getattr(node, "lineno", self.first)
        raw = self._lines[line - self.first]
        begin = len(raw.encode()[: getattr(node, "col_offset", 0) + self._indent].decode(errors="replace"))
        end = len(raw)
        if getattr(node, "end_lineno", None) == line:
            end = len(raw.encode()[: node.end_col_offset + self._indent].decode(errors="replace"))  # type: ignore
        spaces = len(raw) - len(raw.lstrip())
        mark = " " * (begin - spaces) + "^" * max(end - begin, 1)
        return kind(why, instead, self.file, line, raw.strip(), mark)

    def surrounding(self, name: str) -> object:
        """The value that a name has around the function. `KeyError` where it has none."""
        code, cells = self.function.__code__, self.function.__closure__ or ()
        for free, cell in zip(code.co_freevars, cells):
            if free == name:
                try:
                    return cell.cell_contents
                except ValueError:
                    raise KeyError(name) from None
        return self.function.__globals__[name]

    def parameters(self) -> list[str]:
        """The names of the parameters, which are plain ones."""
        given = self.definition.args
        for other in (*given.kwonlyargs, *given.defaults, *filter(None, (given.vararg, given.kwarg))):
            raise self.refusal(NotInKernels, other, "a parameter is a plain name", "write `def NAME(p, a, b):`")
        return [each.arg for each in (*given.posonlyargs, *given.args)]


def stored_names(nodes: list[ast.stmt]) -> Iterator[str]:
    """The names that statements set, in the order of the text."""
    seen: set[str] = set()
    for node in (each for statement in nodes for each in ast.walk(statement)):
        if isinstance(node, ast.Name) and isinstance(node.ctx, ast.Store) and node.id not in seen:
            seen.add(node.id)
            yield node.id
