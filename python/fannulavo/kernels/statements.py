"""Statements as instructions."""

from __future__ import annotations

import ast

from fannulavo.kernels.code import Place
from fannulavo.kernels.expressions import OPERATORS
from fannulavo.kernels.frames import both
from fannulavo.kernels.loops import Loops

WRITE_STATEMENT = {
    ast.FunctionDef: "write the helper above the kernel",
    ast.ClassDef: "keep words in p.memory",
    ast.With: "leave it away: a kernel opens nothing",
    ast.Try: "test before: `if i < len(p.memory):`",
    ast.Raise: "write `return p.abort(code)`, or assert",
    ast.Import: "import above the kernel, and use whole numbers and helpers alone",
    ast.ImportFrom: "import above the kernel, and use whole numbers and helpers alone",
    ast.Global: "keep the word in p.memory: nothing else stays from turn to turn",
    ast.Nonlocal: "keep the word in p.memory: nothing else stays from turn to turn",
    ast.Delete: "leave it away: names are gone when the turn ends",
    ast.Match: "write if and elif",
}
ENDS = ("sync", "halt", "abort")


class Statements(Loops):
    """Statements. Registers that a statement takes are given back behind it."""

    def statements(self, nodes: list[ast.stmt]) -> None:
        for node in nodes:
            with self.released():
                self.at(node)
                self.statement(node)

    def statement(self, node: ast.stmt) -> None:
        match node:
            case ast.Pass() | ast.Expr(value=ast.Constant(value=str())):
                pass
            case ast.Assign(targets=targets, value=value):
                self.assign(targets, value)
            case ast.AnnAssign(target=target, value=ast.expr() as value):
                self.assign([target], value)
            case ast.AugAssign():
                self.change(node)
            case ast.If():
                self.branch(node)
            case ast.While(orelse=[]):
                self.repeat(node)
            case ast.For(target=ast.Name(), iter=ast.Call(func=ast.Name(id="range")), orelse=[]):
                self.count(node)
            case ast.For(target=ast.Name(), iter=ast.Call(func=of), orelse=[]) if self.of_context(of) == "messages":
                self.receive(node)
            case ast.Break() | ast.Continue():
                self.leave(node)
            case ast.Return():
                self.give_back(node)
            case ast.Assert():
                self.insist(node)
            case ast.Expr(value=ast.Call() as call):
                self.call(call)
            case _:
                raise self.no_statement(node)

    def no_statement(self, node: ast.stmt) -> Exception:
        if isinstance(node, (ast.For, ast.While)):
            if node.orelse:
                return self.refusal(node.orelse[0], "a loop has no else", "write the lines behind the loop")
            instead = "write `for i in range(a, b):`, or `for message in p.messages():`"
            return self.refusal(node, "no loop of a kernel", instead)  # type: ignore[arg-type]
        instead = WRITE_STATEMENT.get(type(node), "set a name, store into p.memory, or call the context or a helper")
        return self.refusal(node, "no statement of a kernel", instead)

    # names and words of the memory

    def assign(self, targets: list[ast.expr], value: ast.expr) -> None:
        for target in targets:
            if isinstance(target, ast.Subscript) and isinstance(target.slice, ast.Slice):
                instead = "write a loop: `for i in range(a, b):` and p.memory[i]; or message.move_into(a)"
                raise self.refusal(target, "a block can not be set", instead)
        match targets:
            case [ast.Tuple(elts=names) | ast.List(elts=names)] if isinstance(value, (ast.Tuple, ast.List)):
                if len(names) != len(value.elts):
                    raise self.refusal(value, "there are not as many words as names", "write a word for each name")
                first, _ = self.row(value.elts)
                for place, name in enumerate(names):
                    self.store(name, first + place)
            case [ast.Name() as name] if name.id in self.frame.registers:
                self.value(value, self.frame.registers[name.id])
                self.has_set(name)
            case _:
                register = self.value(value)
                for target in targets:
                    self.store(target, register)

    def store(self, target: ast.expr, register: int) -> None:
        """Gives a word to a name, or stores it."""
        match target:
            case ast.Name(id=name) if name != self.frame.context:
                self.has_set(target)
                self.copied(register, self.frame.registers[name])
            case ast.Subscript(value=of, slice=index) if self.of_context(of) == "memory":
                with self.released():
                    address = self.address(index)
                    self.at(target)
                    self.add("store", address, register)
            case _:
                instead = "set a name of its own, or a word of the memory by p.memory[i]"
                raise self.refusal(target, "this can not be set", instead)

    def change(self, node: ast.AugAssign) -> None:
        """x += y, and the same of a word of the memory, whose address is computed once."""
        target = node.target
        if isinstance(target, ast.Subscript) and self.of_context(target.value) == "memory":
            if isinstance(target.slice, ast.Slice) or type(node.op) not in OPERATORS:
                self.value(ast.copy_location(ast.BinOp(target, node.op, node.value), node))
            address, word = self.address(target.slice), self.code.fresh()
            self.at(node)
            self.add("load", word, address)
            other = self.value(node.value)
            self.at(node)
            self.add(OPERATORS[type(node.op)], word, word, other)
            self.add("store", address, word)
            return
        if not isinstance(target, ast.Name):
            self.store(target, 0)
            return
        loaded = ast.copy_location(ast.Name(target.id, ast.Load()), target)
        self.value(ast.copy_location(ast.BinOp(loaded, node.op, node.value), node), self.frame.registers[target.id])

    # branches

    def branch(self, node: ast.If) -> None:
        other, end = Place(), Place()
        self.jump(node.test, False, other)
        before = self.frame.set_names
        self.statements(node.body)
        after = self.frame.set_names
        self.frame.set_names = before
        if node.orelse:
            if after is not None:
                self.add("jump", end)
            self.code.mark(other)
            self.statements(node.orelse)
            self.code.mark(end)
        else:
            self.code.mark(other)
        self.frame.set_names = both(after, self.frame.set_names)

    # the end of a turn, and of a helper

    def ended(self, node: ast.Call, name: str) -> None:
        """The turn ends, in the kernel or in a helper."""
        if name == "abort":
            self.act(node, name)
        else:
            self.bound(node, name)
            self.finish(node, name, ())
        self.frame.set_names = None

    def give_back(self, node: ast.Return) -> None:
        frame, value = self.frame, node.value
        if isinstance(value, ast.Call) and self.of_context(value.func) in ENDS:
            self.ended(value, self.of_context(value.func))  # type: ignore[arg-type]
            return
        if frame.is_kernel:
            if isinstance(value, ast.Call) and isinstance(value.func, ast.Name):
                self.helped(value, None, False)
            elif value is not None:
                raise self.refusal(node, "a turn has no result", "write `return p.sync()`, p.halt() or p.abort(code)")
            if frame.set_names is not None:
                self.add("sync")
        else:
            if value is not None:
                self.value(value, frame.result)
            elif frame.is_used:
                raise self.refusal(node, "a way through the helper answers no word", "write `return WORD`")
            frame.returns += 1
            self.add("jump", frame.end)
        frame.set_names = None

    def insist(self, node: ast.Assert) -> None:
        """An assertion that fails aborts, with the number of its line."""
        past = Place()
        self.jump(node.test, True, past)
        self.at(node)
        self.add("abort", self.number(node.lineno))
        self.code.mark(past)

    def call(self, node: ast.Call) -> None:
        name = self.of_context(node.func)
        match node.func:
            case ast.Attribute(value=ast.Name(id=of), attr="move_into") if of in self.frame.messages:
                self.moved(node, of)
            case ast.Name():
                self.helped(node, None, False)
            case _ if name in ENDS:
                instead = f"write `return {ast.unparse(node)}`: nothing behind it is done in this turn"
                raise self.refusal(node, f"{name} ends the turn", instead)
            case _ if name == "messages":
                raise self.refusal(node, "messages are taken one by one", "write `for message in p.messages():`")
            case _ if name is not None:
                self.act(node, name)
            case _:
                raise self.refusal(node, "no call of a kernel", "call the context, as p.put(..), or a helper")
