"""The calls of a context, and helpers, whose code stands where they are called."""

from __future__ import annotations

import ast
from types import FunctionType
from typing import Any

from fannulavo.errors import KernelError, Recursion
from fannulavo.kernels.code import Place
from fannulavo.kernels.expressions import Expressions
from fannulavo.kernels.frames import Frame
from fannulavo.kernels.source import Source, stored_names

PARAMETERS = {
    "charge": ("amount",),
    "push_reg": ("start", "length"),
    "pop_reg": ("start",),
    "get": ("pid", "area", "offset", "into", "length"),
    "put": ("pid", "words", "area", "offset"),
    "send": ("pid", "tag", "words"),
    "set_tagsize": ("size",),
    "abort": ("code",),
    "sync": (),
    "halt": (),
    "move_into": ("into", "most"),
}
BUILTINS = {
    "print": "write p.print(x, y) for a line of the report",
    "abs": "words have no sign: write a - b if b < a else b - a",
    "sum": "write a loop",
    "pow": "write a loop of multiplications",
    "divmod": "write // and %",
    "int": "leave it away: all words are whole numbers",
    "enumerate": "write `for i in range(a, b):` and p.memory[i]",
    "reversed": "write `for k in range(n):` and i = n - 1 - k",
    "range": "write it in the head of a loop: `for i in range(n):`",
    "sorted": "write a loop that sorts words of p.memory",
}


class Calls(Expressions):
    """Calls as expressions and as statements."""

    def bound(self, node: ast.Call, name: str, least: int | None = None) -> list[ast.expr]:
        """The arguments of a call of the context, in the order of its parameters."""
        names = PARAMETERS[name]
        given = [*node.args]
        for keyword in node.keywords:
            if len(given) >= len(names) or keyword.arg != names[len(given)]:
                raise self.wrong_arguments(node, name)
            given.append(keyword.value)
        least = len(names) if least is None else least
        if not least <= len(given) <= len(names) or any(isinstance(each, ast.Starred) for each in given):
            raise self.wrong_arguments(node, name)
        return given

    def wrong_arguments(self, node: ast.Call, name: str) -> KernelError:
        call = f"{ast.unparse(node.func)}({', '.join(PARAMETERS[name])})"
        return self.refusal(node, f"{name} has other arguments", f"write {call}")

    def called(self, node: ast.Call, into: int | None) -> int:
        """A call whose word is used."""
        match node:
            case ast.Call(func=ast.Name(id="len"), args=[measured], keywords=[]):
                return self.length(node, measured, into)
            case ast.Call(func=ast.Name(id="min" | "max" as name), args=[_, _, *_], keywords=[]):
                return self.extreme(name, node.args, into)
            case ast.Call(func=ast.Name()):
                return self.helped(node, into, True)
        if self.of_context(node.func) == "set_tagsize":
            (size,) = self.bound(node, "set_tagsize")
            with self.released():
                a = self.value(size)
            register = self.target(into)
            self.add("set_tagsize", register, a)
            return register
        raise self.refusal(node, "this call gives no word", "write it as a line of its own")

    def length(self, node: ast.Call, measured: ast.expr, into: int | None) -> int:
        if self.of_context(measured) == "memory":
            register = self.target(into)
            self.add("memory_len", register)
            return register
        match measured:
            case ast.Name(id=name) if name in self.frame.messages:
                return self.copied(self.frame.messages[name].length, into)
            case ast.Attribute(value=ast.Name(id=name), attr="tag") if name in self.frame.messages:
                return self.copied(self.frame.messages[name].tag_length, into)  # type: ignore[arg-type]
        instead = "write len(p.memory), len(message) or len(message.tag); hand in other lengths by p.args"
        raise self.refusal(node, "this has no length", instead)

    def extreme(self, name: str, given: list[ast.expr], into: int | None) -> int:
        """The least or the largest of words."""
        own = self.code.fresh()
        self.value(given[0], own)
        for each in given[1:]:
            past = Place()
            with self.released():
                other = self.value(each)
                self.go_on_less(*((other, own) if name == "min" else (own, other)), False, past)
                self.add("copy", own, other)
            self.code.mark(past)
        return self.copied(own, into)

    def row(self, words: list[ast.expr]) -> tuple[int, int]:
        """Words in registers that follow one another: the first register, and how many."""
        first = self.code.fresh(len(words))
        for place, word in enumerate(words):
            self.value(word, first + place)
        return first, len(words)

    def is_block(self, node: ast.expr) -> bool:
        """Whether an expression names own words that follow one another."""
        match node:
            case ast.Subscript(value=of, slice=ast.Slice()):
                return self.of_context(of) == "memory"
        return False

    def block(self, node: ast.Subscript) -> tuple[int, int]:
        """The registers of the start and of the length of a block of own words."""
        bounds = node.slice
        assert isinstance(bounds, ast.Slice)
        if bounds.step is not None:
            raise self.refusal(node, "a block is of words that follow one another", "write p.memory[a:b]")
        start = self.number(0) if bounds.lower is None else self.address(bounds.lower)
        count = self.code.fresh()
        if bounds.upper is None:
            self.add("memory_len", count)
        else:
            self.copied(self.address(bounds.upper), count)
        self.add("sub", count, count, start)
        return start, count

    def words(self, node: ast.expr) -> tuple[bool, int, int]:
        """Whether words are a block of own words, and two operands that name them."""
        if self.is_block(node):
            return True, *self.block(node)  # type: ignore[arg-type]
        if isinstance(node, (ast.List, ast.Tuple)):
            return False, *self.row(node.elts)
        raise self.refusal(node, "these are no words", "write a list, as [x, y], or a block, as p.memory[a:b]")

    def act(self, node: ast.Call, name: str) -> None:
        """A call of the context as a statement."""
        match name:
            case "put":
                pid, words, area, *offset = self.bound(node, name, 3)
                to = self.value(pid)
                is_block, *operands = self.words(words)
                start = self.value(area), self.value(offset[0]) if offset else self.number(0)
                self.finish(node, "put_block" if is_block else "put", (to, *operands), *start)
            case "send":
                pid, tag, words = self.bound(node, name)
                to = self.value(pid)
                if not isinstance(tag, (ast.List, ast.Tuple)):
                    raise self.refusal(tag, "a tag is a list of words", "write [] or [x]")
                tagged = self.row(tag.elts)
                is_block, *operands = self.words(words)
                self.finish(node, "send_block" if is_block else "send", (to, *tagged), *operands)
            case "print":
                self.printed(node)
            case "set_tagsize":
                self.called(node, None)
            case "charge" | "push_reg" | "pop_reg" | "get" | "abort":
                self.finish(node, name, tuple(map(self.value, self.bound(node, name))))
            case _:
                names = [f"p.{each}" for each in PARAMETERS if each != "move_into"]
                instead = f"the calls are {', '.join(names)} and p.print"
                raise self.refusal(node, f"there is no call p.{name}", instead)

    def finish(self, node: ast.AST, name: str, operands: tuple[int, ...], *more: int) -> None:
        self.at(node)
        self.add(name, *operands, *more)

    def printed(self, node: ast.Call) -> None:
        if node.keywords:
            raise self.refusal(node, "a line has words alone", "write p.print(x, y), or p.print(p.memory[a:b])")
        if len(node.args) == 1 and self.is_block(node.args[0]):
            self.finish(node, "print_block", self.block(node.args[0]))  # type: ignore[arg-type]
        else:
            self.finish(node, "print", self.row(node.args))

    def moved(self, node: ast.Call, name: str) -> None:
        """Words of a message that go into the memory."""
        into, *most = self.bound(node, "move_into", 1)
        address = self.value(into)
        count = self.value(most[0]) if most else self.frame.messages[name].length
        self.finish(node, "store_taken", (address, count))

    # helpers

    def helper(self, node: ast.Call) -> FunctionType:
        assert isinstance(node.func, ast.Name)
        name = node.func.id
        if name in BUILTINS:
            raise self.refusal(node, f"a kernel has no {name}", BUILTINS[name])
        if name in ("min", "max", "len"):
            call = "len(p.memory)" if name == "len" else f"{name}(a, b)"
            raise self.refusal(node, f"{name} has other arguments", f"write {call}")
        if name == self.frames[0].source.definition.name:
            raise self.refusal(node, f"{name} calls itself", "write a loop", Recursion)
        function = self.surrounding(node.func)
        if not isinstance(function, FunctionType):
            instead = "call a function that is written with `def` above the kernel"
            raise self.refusal(node, f"{name} is no helper", instead)
        if function in [frame.source.function for frame in self.frames]:
            raise self.refusal(node, f"{name} calls itself", "write a loop", Recursion)
        return function

    def source_of(self, node: ast.Call, function: FunctionType) -> Source:
        if function not in self.helpers:
            try:
                self.helpers[function] = Source(function)
            except TypeError as error:
                raise self.refusal(node, str(error), "write the helper with `def` in a file") from None
        return self.helpers[function]

    def helped(self, node: ast.Call, into: int | None, is_used: bool) -> int:
        """The code of a helper. Its result is in the register that is answered."""
        source = self.source_of(node, self.helper(node))
        names = source.parameters()
        if len(names) != len(node.args) or node.keywords:
            call = f"{source.definition.name}({', '.join(names)})"
            raise self.refusal(node, "the helper has other parameters", f"write {call}")
        result = self.target(into)
        own = self.code.fresh() if into is not None else result  # arguments may be read where the result is written
        with self.released():
            frame = self.framed(node, source, names)
            frame.result, frame.is_used = own, is_used
            caller = self.at_caller()
            self.frames.append(frame)
            self.statements(source.definition.body)
            if is_used and frame.set_names is not None:
                instead = "end each way of the helper by `return WORD`"
                raise self.refusal(source.definition.body[-1], "a way through the helper answers no word", instead)
            self.frames.pop()
            self.return_to(caller, frame)
        return self.copied(own, into)

    def framed(self, node: ast.Call, source: Source, names: list[str]) -> Frame:
        """The frame of a helper, with its arguments in registers."""
        stored = list(stored_names(source.definition.body))
        frame = Frame(source, None, {}, frozenset(names))
        for name, argument in zip(names, node.args):
            if self.is_context(argument):
                if frame.context is not None:
                    raise self.refusal(argument, "the context is handed over once", "leave the second one away")
                frame.context = name
            else:
                own = self.code.fresh() if name in stored else None
                frame.registers[name] = self.value(argument, own)
        if frame.context in stored:
            raise self.refusal(node, f"the helper sets {frame.context}, its context", "set a name of its own there")
        for name in stored:
            if name not in frame.registers:
                frame.registers[name] = self.code.fresh()
        return frame

    def at_caller(self) -> Any:
        return self.code.source, self.code.node, self.frame.set_names

    def return_to(self, caller: Any, frame: Frame) -> None:
        self.code.source, self.code.node, names = caller
        self.code.mark(frame.end)
        is_left = frame.set_names is None and not frame.returns
        self.frame.set_names = None if is_left else names

    def statements(self, nodes: list[ast.stmt]) -> None:
        raise NotImplementedError
