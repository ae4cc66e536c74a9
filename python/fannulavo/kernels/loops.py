"""Loops as instructions: while, over a range, and over messages."""

from __future__ import annotations

import ast

from fannulavo.kernels.calls import Calls
from fannulavo.kernels.code import Place
from fannulavo.kernels.frames import Loop, Taken, both


def is_true(node: ast.expr) -> bool:
    return isinstance(node, ast.Constant) and bool(node.value)


class Loops(Calls):
    """Loops. A number that is used in one has a register of its own."""

    def body(self, loop: Loop, nodes: list[ast.stmt]) -> None:
        self.frame.loops.append(loop)
        self.statements(nodes)
        self.frame.loops.pop()

    def repeat(self, node: ast.While) -> None:
        loop, frame = Loop(), self.frame
        self.depth += 1
        self.code.mark(loop.next)
        if not is_true(node.test):
            self.jump(node.test, False, loop.end)
        before = None if is_true(node.test) else frame.set_names
        self.body(loop, node.body)
        self.at(node)
        self.add("jump", loop.next)
        self.code.mark(loop.end)
        self.depth -= 1
        for names in (before, *loop.at_breaks):
            before = both(before, names)
        frame.set_names = before

    def bounds(self, node: ast.For) -> list[ast.expr]:
        """The start, the end and the step of a range."""
        call = node.iter
        assert isinstance(call, ast.Call)
        zero, one = (ast.copy_location(ast.Constant(number), call) for number in (0, 1))
        match call.args:
            case [end]:
                return [zero, end, one]
            case [start, end]:
                return [start, end, one]
            case [start, end, step]:
                pass
            case _:
                instead = "write range(end), range(start, end) or range(start, end, step)"
                raise self.refusal(call, "range has other arguments", instead)
        is_zero = isinstance(step, ast.Constant) and step.value == 0
        if is_zero or isinstance(step, ast.UnaryOp):
            instead = "write a step from 1 on; downwards, `for k in range(n):` and i = n - 1 - k"
            raise self.refusal(step, "a range counts upwards", instead)
        return [start, end, step]

    def is_counter(self, node: ast.For, name: str) -> bool:
        """Whether the name can count by itself: nothing sets it in the loop, and nothing reads it outside of loops that
        it counts."""

        nodes = self.frame.source.nodes
        loops = [each for each in nodes if isinstance(each, ast.For) and getattr(each.target, "id", None) == name]
        inside = [each for loop in loops for statement in loop.body for each in ast.walk(statement)]

        def uses(of: list[ast.AST], kind: type[ast.expr_context]) -> int:
            return sum(isinstance(each, ast.Name) and each.id == name and isinstance(each.ctx, kind) for each in of)

        return uses(inside, ast.Store) == 0 and uses(nodes, ast.Load) == uses(inside, ast.Load)

    def count(self, node: ast.For) -> None:
        """A loop over a range. Its test stands at its end, where `last` is the largest number that goes on."""
        assert isinstance(node.target, ast.Name)
        start, end, step = self.bounds(node)
        loop, frame, begin = Loop(), self.frame, Place()
        name = frame.registers[node.target.id]
        self.depth += 1
        counter = self.value(start, name if self.is_counter(node, node.target.id) else self.code.fresh())
        limit, last = self.value(end), self.code.fresh()
        is_number = isinstance(step, ast.Constant)
        distance = self.value(step) if is_number else self.value(step, self.code.fresh())
        self.at(node)
        self.add("unless_lt", counter, limit, loop.end)
        self.add("sub", last, limit, self.number(1))
        self.code.mark(begin)
        self.copied(counter, name)
        before = frame.set_names
        self.has_set(node.target)
        self.body(loop, node.body)
        self.code.mark(loop.next)
        self.at(node)
        self.add("add", counter, counter, distance)
        self.add("unless_lt", last, counter, begin)
        self.code.mark(loop.end)
        self.depth -= 1
        frame.set_names = before

    def receive(self, node: ast.For) -> None:
        """A loop over the messages that are left. Each is taken, behind the words of its tag that the loop names."""
        assert isinstance(node.target, ast.Name) and isinstance(node.iter, ast.Call)
        if node.iter.args or node.iter.keywords:
            raise self.refusal(node.iter, "messages has no arguments", "write `for message in p.messages():`")
        if any(frame.messages for frame in self.frames):
            instead = "take one message behind the other, in one loop"
            raise self.refusal(node.iter, "a loop over messages stands in a loop over messages", instead)
        loop, frame, name = Loop(), self.frame, node.target.id
        taken = self.room(node, name)
        self.depth += 1
        self.code.mark(loop.next)
        with self.released():
            left = self.code.fresh()
            self.add("messages_left", left)
            self.add("unless", left, loop.end)
            for index, register in taken.tag.items():
                self.add("first_tag", register, self.number(index))
            if taken.tag_length is not None:
                self.add("first_tag_len", taken.tag_length)
            self.add("take", taken.length)
        before = frame.set_names
        frame.messages[name] = taken
        self.body(loop, node.body)
        del frame.messages[name]
        self.at(node)
        self.add("jump", loop.next)
        self.code.mark(loop.end)
        self.depth -= 1
        frame.set_names = before

    def room(self, node: ast.For, name: str) -> Taken:
        """Registers for what a loop names of its message."""
        taken = Taken(self.code.fresh(), None, {})
        for each in (each for statement in node.body for each in ast.walk(statement)):
            match each:
                case ast.Subscript(value=ast.Attribute(value=ast.Name(id=of), attr="tag")) if of == name:
                    taken.tag.setdefault(self.tag_index(each), 0)
                case ast.Call(func=ast.Name(id="len"), args=[ast.Attribute(value=ast.Name(id=of), attr="tag")]):
                    if of == name and taken.tag_length is None:
                        taken.tag_length = self.code.fresh()
        taken.tag = {index: self.code.fresh() for index in sorted(taken.tag)}
        return taken

    def leave(self, node: ast.Break | ast.Continue) -> None:
        loop = self.frame.loops[-1]
        if isinstance(node, ast.Break):
            loop.at_breaks.append(self.frame.set_names)
        self.add("jump", loop.end if isinstance(node, ast.Break) else loop.next)
        self.frame.set_names = None
