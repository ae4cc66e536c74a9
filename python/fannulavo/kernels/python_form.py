"""A kernel's function as Python runs it: the same text, with numbers modulo 2^64, on a simulated context."""

from __future__ import annotations

import ast
import copy
from collections.abc import Callable, Iterator, Mapping
from operator import index
from types import CodeType, FunctionType
from typing import Any

from fannulavo.kernels.code import MODULUS
from fannulavo.kernels.context import TurnEnded
from fannulavo.kernels.source import Source

MASK = MODULUS - 1
_WRAPS = (ast.Add, ast.Sub, ast.Mult)
_HIDDEN = "_address"


def shifted(word: int, bits: int) -> int:
    """A word that is shifted to the left."""
    return word << bits & MASK if bits < MODULUS.bit_length() else 0


def counted(start: int, end: int, step: int) -> Iterator[int]:
    """A range of words, which wrap."""
    while start < end:
        yield start
        start = start + step & MASK


def abort(code: int) -> None:
    """Ends the turn."""
    raise TurnEnded(None, f"F1 {code}")


class OverBudget(Exception):
    """A turn may follow more instructions than its budget has."""


class Rounds:
    """How many rounds of loops a turn may make before its instructions have to be counted."""

    def __init__(self) -> None:
        self.left = 0

    def count(self) -> None:
        """A round begins."""
        self.left -= 1
        if self.left < 0:
            raise OverBudget


def _call(name: str, node: ast.expr, *given: ast.expr) -> ast.expr:
    return ast.copy_location(ast.Call(ast.Name(name, ast.Load()), list(given), []), node)


def _masked(node: ast.expr) -> ast.expr:
    return ast.copy_location(ast.BinOp(node, ast.BitAnd(), ast.Constant(MASK)), node)


class _Words(ast.NodeTransformer):
    """Makes operators those of words, and lets each round of a loop be counted."""

    def visit_BinOp(self, node: ast.BinOp) -> ast.expr:
        self.generic_visit(node)
        if isinstance(node.op, ast.LShift):
            return _call("_shifted", node, node.left, node.right)
        return _masked(node) if isinstance(node.op, _WRAPS) else node

    def visit_UnaryOp(self, node: ast.UnaryOp) -> ast.expr:
        self.generic_visit(node)
        return _masked(node) if isinstance(node.op, (ast.USub, ast.Invert)) else node

    def visit_AugAssign(self, node: ast.AugAssign) -> list[ast.stmt]:
        before: list[ast.stmt] = []
        target = node.target
        if isinstance(target, ast.Subscript):
            address = ast.Name(_HIDDEN, ast.Load())
            before = [ast.copy_location(ast.Assign([ast.Name(_HIDDEN, ast.Store())], self.visit(target.slice)), node)]
            target = ast.copy_location(ast.Subscript(target.value, address, ast.Store()), target)
        loaded = copy.deepcopy(target)
        loaded.ctx = ast.Load()  # type: ignore[union-attr]
        word = ast.copy_location(ast.BinOp(loaded, node.op, node.value), node)
        return [*before, ast.copy_location(ast.Assign([target], self.visit(word)), node)]

    def visit_Assert(self, node: ast.Assert) -> ast.stmt:
        self.generic_visit(node)
        aborts = ast.copy_location(ast.Expr(_call("_abort", node.test, ast.Constant(node.lineno))), node)
        return ast.copy_location(ast.If(ast.UnaryOp(ast.Not(), node.test), [aborts], []), node)

    def visit_For(self, node: ast.For) -> ast.For:
        call, target = node.iter, node.target
        assert isinstance(call, ast.Call) and isinstance(target, ast.Name)
        if isinstance(call.func, ast.Attribute):
            named = {
                each.slice.value
                for statement in node.body
                for each in ast.walk(statement)
                if isinstance(each, ast.Subscript)
                and isinstance(each.value, ast.Attribute)
                and isinstance(each.slice, ast.Constant)
                and isinstance(each.value.value, ast.Name)
                and each.value.value.id == target.id
            }
            call.args = [ast.Constant(place) for place in sorted(named)]  # type: ignore[type-var]
        elif len(call.args) == 3:
            call.func = ast.Name("_counted", ast.Load())
        return self._counting(node)

    def visit_While(self, node: ast.While) -> ast.While:
        return self._counting(node)

    def _counting(self, node: Any) -> Any:
        self.generic_visit(node)
        node.body.insert(0, ast.copy_location(ast.Expr(_call("_round", node.body[0])), node.body[0]))
        return node


def _codes_in(code: CodeType) -> Iterator[CodeType]:
    yield code
    for each in code.co_consts:
        if isinstance(each, CodeType):
            yield from _codes_in(each)


class PythonForm:
    """A kernel's function and its helpers, made so that Python computes as the machine does. `codes` are those of their
    code objects, by which a frame is known."""

    def __init__(self, source: Source, helpers: tuple[Source, ...]):
        self.rounds = Rounds()
        self.codes: dict[CodeType, Source] = {}
        self._made: dict[Callable[..., Any], FunctionType] = {}
        self._namespaces: list[tuple[Source, dict[str, Any]]] = []
        for each in (*helpers, source):
            self._make(each)
        for each, namespace in self._namespaces:
            namespace.update(self._around(each))
        self.function = self._made[source.function]

    def _make(self, source: Source) -> None:
        definition = source.parsed()
        definition.decorator_list, definition.returns = [], None
        for parameter in (*definition.args.posonlyargs, *definition.args.args):
            parameter.annotation = None
        tree = ast.fix_missing_locations(ast.Module([_Words().visit(definition)], []))
        builtins = {"len": len, "range": range, "min": min, "max": max}
        namespace: dict[str, Any] = {"__builtins__": builtins, "_round": self.rounds.count}
        namespace |= {"_shifted": shifted, "_counted": counted, "_abort": abort}
        code = compile(tree, source.file, "exec")
        exec(code, namespace)
        self.codes |= dict.fromkeys(_codes_in(code), source)
        self._made[source.function] = namespace[definition.name]
        self._namespaces.append((source, namespace))

    def _around(self, source: Source) -> Mapping[str, Any]:
        """The numbers and the helpers of the surroundings that a function names."""
        found: dict[str, Any] = {}
        for node in ast.walk(source.definition):
            if not isinstance(node, ast.Name) or not isinstance(node.ctx, ast.Load):
                continue
            try:
                value = source.surrounding(node.id)
            except KeyError:
                continue
            if isinstance(value, FunctionType) and value in self._made:
                found[node.id] = self._made[value]
            elif hasattr(value, "__index__"):
                found[node.id] = index(value)  # type: ignore[arg-type]
        return found


def locals_of(names: Mapping[str, Any]) -> dict[str, int]:
    """The words among the locals of a frame."""
    return {name: int(word) for name, word in names.items() if isinstance(word, int) and name != _HIDDEN}
