"""Expressions as instructions that leave a word in a register, and conditions as jumps."""

from __future__ import annotations

import ast

from fannulavo.kernels.code import MODULUS, Place
from fannulavo.kernels.frames import Framed

OPERATORS = {
    ast.Add: "add", ast.Sub: "sub", ast.Mult: "mul", ast.FloorDiv: "div", ast.Mod: "rem", ast.BitAnd: "and",
    ast.BitOr: "or", ast.BitXor: "xor", ast.LShift: "shl", ast.RShift: "shr",
}  # fmt: skip
COMPARES = {
    ast.Eq: ("eq", False), ast.NotEq: ("ne", False), ast.Lt: ("lt", False), ast.LtE: ("le", False),
    ast.Gt: ("lt", True), ast.GtE: ("le", True),
}  # fmt: skip
SOURCES = ("nprocs", "pid", "step", "tag_size", "messages_left", "words_left")
WRITE_OPERATOR = {
    ast.Div: ("/", "write // for the quotient, rounded down"),
    ast.Pow: ("**", "write a loop of multiplications, or 1 << n for a power of two"),
    ast.MatMult: ("@", "write a loop of multiplications"),
}
WRITE_EXPRESSION = {
    ast.List: "keep words in p.memory, and write a list only in a put, a send or a print",
    ast.Tuple: "write one word; keep more of them in p.memory",
    ast.Dict: "keep words in p.memory, or write if and elif",
    ast.Set: "keep words in p.memory",
    ast.ListComp: "write a loop that stores into p.memory",
    ast.GeneratorExp: "write a loop",
    ast.SetComp: "write a loop that stores into p.memory",
    ast.DictComp: "write a loop that stores into p.memory",
    ast.Lambda: "write a helper with `def` above the kernel",
    ast.JoinedStr: "words are numbers; tell what they mean in a comment",
    ast.NamedExpr: "set the name in a line of its own",
    ast.Await: "a turn waits for nothing: end it by `return p.sync()`",
    ast.Yield: "end the turn by `return p.sync()`",
    ast.Starred: "write p.memory[a:b] for a block of words",
    ast.Slice: "a block stands only in a put, a send or a print",
}


class Expressions(Framed):
    """Expressions. `into` is the register that gets the word; where it is None, the answer is one that has it."""

    def target(self, into: int | None) -> int:
        return self.code.fresh() if into is None else into

    def copied(self, register: int, into: int | None) -> int:
        if into is None or into == register:
            return register
        self.add("copy", into, register)
        return into

    def value(self, node: ast.expr, into: int | None = None) -> int:
        """The register with the word of an expression."""
        self.at(node)
        match node:
            case ast.Constant(value=value) if isinstance(value, int):
                if value >= MODULUS:
                    raise self.refusal(node, "a word has 64 bits", "write a number from 0 to 2**64 - 1")
                return self.number(int(value), into)
            case ast.Name():
                return self.named(node, into)
            case ast.BinOp():
                return self.operation(node, into)
            case ast.UnaryOp():
                return self.unary(node, into)
            case ast.Compare() | ast.BoolOp() | ast.IfExp():
                return self.chosen(node, into)
            case ast.Subscript():
                return self.subscript(node, into)
            case ast.Attribute() if self.of_context(node) in SOURCES:
                register = self.target(into)
                self.add(node.attr, register)
                return register
            case ast.Call():
                return self.called(node, into)
        raise self.no_expression(node)

    def no_expression(self, node: ast.expr) -> Exception:
        if isinstance(node, ast.Constant):
            return self.refusal(node, f"{node.value!r} is no word", "words are whole numbers, 0 to 2**64 - 1")
        name = self.of_context(node)
        if name in ("memory", "args"):
            return self.refusal(node, f"p.{name} is no word", f"write p.{name}[i] for one of its words")
        if name is not None:
            instead = f"a number is one of {', '.join(f'p.{each}' for each in SOURCES)}; a call has brackets"
            return self.refusal(node, f"there is no number p.{name}", instead)
        instead = WRITE_EXPRESSION.get(type(node), "compute a word by operators, or call a helper")
        return self.refusal(node, "this is no word", instead)

    def called(self, node: ast.Call, into: int | None) -> int:
        raise NotImplementedError

    def named(self, node: ast.Name, into: int | None) -> int:
        if self.is_context(node):
            raise self.refusal(node, f"{node.id} is the context", "write its members, as p.pid, or hand it to a helper")
        if node.id in self.frame.messages:
            raise self.refusal(node, f"{node.id} is a message", "write message[i], len(message) or message.tag[0]")
        register = self.local(node)
        if register is None:
            return self.number(self.surrounding_number(node), into)
        return self.copied(register, into)

    def operation(self, node: ast.BinOp, into: int | None) -> int:
        if type(node.op) not in OPERATORS:
            sign, instead = WRITE_OPERATOR[type(node.op)]
            raise self.refusal(node, f"words have no operator {sign}", instead)
        with self.released():
            a, b = self.value(node.left), self.value(node.right)
        register = self.target(into)
        self.at(node)
        self.add(OPERATORS[type(node.op)], register, a, b)
        return register

    def unary(self, node: ast.UnaryOp, into: int | None) -> int:
        with self.released():
            a = self.value(node.operand)
            zero = self.number(0)
            match node.op:
                case ast.Not():
                    name, operands = "eq", (a, zero)
                case ast.USub():
                    name, operands = "sub", (zero, a)
                case ast.Invert():
                    name, operands = "xor", (a, self.number(MODULUS - 1))
                case _:
                    name, operands = "copy", (a,)
        register = self.target(into)
        self.add(name, register, *operands)
        return register

    def compare(self, op: ast.cmpop, a: int, b: int, into: int) -> None:
        name, is_swapped = COMPARES[type(op)]
        self.add(name, into, *((b, a) if is_swapped else (a, b)))

    def chosen(self, node: ast.Compare | ast.BoolOp | ast.IfExp, into: int | None) -> int:
        """Comparisons, `and`, `or` and `x if c else y`. All but a single comparison are computed in a register of their
        own, since their parts may read the register that gets the word."""
        if isinstance(node, ast.Compare) and any(type(op) not in COMPARES for op in node.ops):
            raise self.refusal(node, "words are compared by ==, !=, <, <=, > and >=", "write one of these, or a loop")
        if isinstance(node, ast.Compare) and len(node.ops) == 1:
            with self.released():
                a, b = self.value(node.left), self.value(node.comparators[0])
            register = self.target(into)
            self.compare(node.ops[0], a, b, register)
            return register
        own = self.code.fresh()
        end = Place()
        if isinstance(node, ast.Compare):
            self.chain(node, own, end)
        elif isinstance(node, ast.BoolOp):
            for value in node.values[:-1]:
                self.value(value, own)
                self.go_on(own, isinstance(node.op, ast.Or), end)
            self.value(node.values[-1], own)
        else:
            other = Place()
            self.jump(node.test, False, other)
            self.value(node.body, own)
            self.add("jump", end)
            self.code.mark(other)
            self.value(node.orelse, own)
        self.code.mark(end)
        return self.copied(own, into)

    def chain(self, node: ast.Compare, own: int, end: Place) -> None:
        """A chain of comparisons: 1 in a register where all hold. The first that does not goes to the end with 0."""
        with self.released():
            a = self.value(node.left)
            for place, (op, right) in enumerate(zip(node.ops, node.comparators)):
                b = self.value(right)
                self.compare(op, a, b, own)
                if place + 1 < len(node.ops):
                    self.add("unless", own, end)
                a = b

    def go_on(self, register: int, if_true: bool, to: Place) -> None:
        """Jumps where a register is not 0, or where it is."""
        if not if_true:
            self.add("unless", register, to)
            return
        past = Place()
        self.add("unless", register, past)
        self.add("jump", to)
        self.code.mark(past)

    def jump(self, node: ast.expr, if_true: bool, to: Place) -> None:
        """Jumps where a condition holds, or where it does not; else the code goes on behind."""
        self.at(node)
        match node:
            case ast.UnaryOp(op=ast.Not(), operand=operand):
                self.jump(operand, not if_true, to)
            case ast.BoolOp(op=op, values=values):
                past = Place()
                is_or = isinstance(op, ast.Or)
                for value in values[:-1]:
                    self.jump(value, is_or, to if is_or == if_true else past)
                self.jump(values[-1], if_true, to)
                self.code.mark(past)
            case ast.Compare(left=left, ops=[ast.NotEq() | ast.Gt()], comparators=[ast.Constant(value=0)]):
                self.jump(left, if_true, to)
            case ast.Compare(left=left, ops=[ast.Eq()], comparators=[ast.Constant(value=0)]):
                self.jump(left, not if_true, to)
            case ast.Compare(left=left, ops=[ast.Lt() | ast.Gt() | ast.LtE() | ast.GtE() as op], comparators=[right]):
                with self.released():
                    a, b = self.value(left), self.value(right)
                less, is_less = ((b, a), True) if isinstance(op, ast.Gt) else ((a, b), isinstance(op, ast.Lt))
                if isinstance(op, ast.LtE):
                    less = b, a
                self.go_on_less(*less, is_less == if_true, to)
            case _:
                with self.released():
                    self.go_on(self.value(node), if_true, to)

    def go_on_less(self, a: int, b: int, if_less: bool, to: Place) -> None:
        """Jumps where a is less than b, or where it is not."""
        if not if_less:
            self.add("unless_lt", a, b, to)
            return
        past = Place()
        self.add("unless_lt", a, b, past)
        self.add("jump", to)
        self.code.mark(past)

    def subscript(self, node: ast.Subscript, into: int | None) -> int:
        """A word of the memory, an argument, or a word of a message."""
        of = self.of_context(node.value)
        if isinstance(node.slice, ast.Slice):
            instead = "write p.memory[a:b] only as the words of a put, a send or a print"
            raise self.refusal(node, "a block of words is no word", instead)
        if of == "memory":
            return self.loaded(node, into)
        if of == "args":
            return self.indexed("argument", node.slice, into)
        match node.value:
            case ast.Name(id=name) if name in self.frame.messages:
                return self.indexed("taken", node.slice, into)
            case ast.Attribute(value=ast.Name(id=name), attr="tag") if name in self.frame.messages:
                return self.copied(self.frame.messages[name].tag[self.tag_index(node)], into)
        instead = "write p.memory[i], p.args[i], message[i] or message.tag[0]"
        raise self.refusal(node, "this has no words", instead)

    def tag_index(self, node: ast.Subscript) -> int:
        if isinstance(node.slice, ast.Constant) and type(node.slice.value) is int:
            return node.slice.value
        raise self.refusal(node, "a word of a tag is named by a number", "write message.tag[0]")

    def address(self, node: ast.expr) -> int:
        """The register of an address."""
        if isinstance(node, ast.UnaryOp) and isinstance(node.op, ast.USub):
            instead = "write p.memory[len(p.memory) - 1] for the last word"
            raise self.refusal(node, "addresses count from 0 upwards", instead)
        return self.value(node)

    def indexed(self, name: str, index: ast.expr, into: int | None) -> int:
        with self.released():
            a = self.address(index)
        register = self.target(into)
        self.add(name, register, a)
        return register

    def loaded(self, node: ast.Subscript, into: int | None) -> int:
        """A load; of a sum of two registers it is one instruction."""
        with self.released():
            match node.slice:
                case ast.BinOp(left=left, op=ast.Add(), right=right):
                    operands = [self.value(left), self.value(right)]
                case _:
                    operands = [self.address(node.slice)]
        register = self.target(into)
        self.at(node)
        self.add("load" if len(operands) == 1 else "load_at", register, *operands)
        return register
