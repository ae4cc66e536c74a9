"""Kernels of random text."""

from __future__ import annotations

import random

NAMES = ("a", "b", "c")
OPERATORS = ("+", "-", "*", "//", "%", "&", "|", "^", "<<", ">>")
COMPARES = ("==", "!=", "<", "<=", ">", ">=")
NUMBERS = (0, 1, 2, 3, 5, 63, 64, 2**32 - 1, 2**32, 2**63 - 1, 2**63, 2**64 - 2, 2**64 - 1)


class Drawn:
    """Draws the text of a kernel, with two helpers."""

    def __init__(self, rng: random.Random):
        self.rng = rng
        self.message: str | None = None
        self.in_helper = False
        self.loops = 0

    def pick(self, *choices: str) -> str:
        return self.rng.choice(choices)

    def word(self, depth: int = 3) -> str:
        """An expression."""
        leaves = [self.pick(*NAMES), str(self.rng.choice(NUMBERS)), str(self.rng.randrange(9)), "True", "K"]
        leaves += ["p.pid", "p.nprocs", "p.step", "len(p.memory)", "p.messages_left", "p.words_left", "p.tag_size", "p.args[0]"]
        if self.message:
            leaves += [f"len({self.message})", f"{self.message}[0]", f"{self.message}.tag[0]", f"len({self.message}.tag)"]
        if depth == 0 or self.rng.random() < 0.25:
            return self.rng.choice(leaves)
        x, y, z = (self.word(depth - 1) for _ in range(3))
        forms = [f"({x} {self.pick(*OPERATORS)} {y})" for _ in range(4)]
        forms += [f"p.memory[{x} % 5]", f"p.memory[{self.pick(*NAMES)} + {self.rng.randrange(3)}]", f"p.memory[{x} | 0]"]
        forms += [f"({x} {self.pick(*COMPARES)} {y})", f"({x} {self.pick(*COMPARES)} {y} {self.pick(*COMPARES)} {z})"]
        forms += [f"({x} {self.pick('and', 'or')} {y})", f"({x} if {z} else {y})", f"({self.pick('not ', '-', '~', '+')}({x}))"]
        forms += [f"min({x}, {y})", f"max({x}, {y}, {z})", f"p.set_tagsize({x} % 3)"]
        if not self.in_helper:
            forms += [f"mix({x}, {y})", f"touch(p, {x})"]
        return self.rng.choice(forms)

    def test(self) -> str:
        return self.pick(self.word(2), f"{self.word(1)} {self.pick(*COMPARES)} {self.word(1)}", f"not {self.word(1)} < {self.word(1)}")

    def block(self, depth: int, indent: str) -> list[str]:
        lines: list[str] = []
        for _ in range(self.rng.randrange(1, 4)):
            lines += [f"{indent}{line}" for line in self.statement(depth)]
        return lines

    def statement(self, depth: int) -> list[str]:
        """The lines of a statement."""
        if depth and self.rng.random() < 0.4:
            return self.compound(depth - 1)
        name = self.pick(*NAMES)
        other = self.pick(*NAMES)
        forms = [f"{name} = {self.word()}", f"{name} {self.pick(*OPERATORS)}= {self.word(2)}", f"{name} = {other} = {self.word(1)}"]
        forms += [f"p.memory[{self.word(1)} % 6] = {self.word(2)}", f"p.memory[{name}] {self.pick(*OPERATORS)}= {self.word(2)}"]
        forms += [f"{name}, {other} = {self.word(2)}, {self.word(1)}", f"p.charge({self.word(1)} % 50)", f"p.print({self.word(1)}, {name})"]
        forms += [f"p.put({self.word(1)} % p.nprocs, [{self.word(1)}, {name}], 0, {self.word(1)} % 3)", f"p.put(0, p.memory[{name} % 3 : {other}], 1)"]
        forms += [f"p.send({name} % p.nprocs, [{self.word(1)}], [{other}])", f"p.send(0, [], p.memory[{name}:])", "p.print(p.memory[:2])"]
        forms += [f"p.get(0, 0, {name} % 2, {other} % 4, 1)", "p.push_reg(0, 1)", "p.pop_reg(0)", f"assert {self.test()}"]
        if self.message:
            forms += [f"{self.message}.move_into({name} % 4)", f"{self.message}.move_into(1, {self.word(1)})"] * 3
        if self.loops:
            forms += [f"if {self.test()}:\n    {self.pick('break', 'continue')}"] * 3
        if not self.in_helper:
            forms += [f"if {self.test()}:\n    return {self.pick('p.sync()', 'p.halt()', f'p.abort({self.word(1)})')}"]
        return self.rng.choice(forms).split("\n")

    def compound(self, depth: int) -> list[str]:
        kind = self.pick("if", "if", "for", "for", "while", *([] if self.message or self.in_helper else ["messages"]))
        if kind == "if":
            lines = [f"if {self.test()}:", *self.block(depth, "    ")]
            if self.rng.random() < 0.4:
                lines += [f"elif {self.test()}:", *self.block(depth, "    ")]
            return lines + (["else:", *self.block(depth, "    ")] if self.rng.random() < 0.5 else [])
        self.loops += 1
        if kind == "for":
            bounds = self.word(1), f"{self.word(1)}, {self.word(1)}", f"{self.word(0)}, 9, {self.pick('2', 'K')}"
            head = f"for {self.pick('i', *NAMES)} in range({self.pick(*bounds)}):"
        elif kind == "while":
            head = f"while {self.test()}:"
        else:
            head, self.message = "for message in p.messages():", "message"
        lines = [head, *self.block(depth, "    ")]
        self.message = None if kind == "messages" else self.message
        self.loops -= 1
        return lines


def kernel_text(seed: int) -> str:
    """The text of a file with a kernel, `drawn`."""
    drawn = Drawn(random.Random(seed))
    drawn.in_helper = True
    helper = drawn.block(1, "    ")
    drawn.in_helper = False
    body = drawn.block(3, "    ") + drawn.block(3, "    ")
    lines = ["from fannulavo import kernel", "", f"K = {drawn.rng.choice((1, 2, 7, 2**40))}", "", ""]
    lines += ["def mix(x, y):", "    if x < y:", "        return x", "    while y:", "        y >>= K", "    return y ^ K", "", ""]
    lines += ["def touch(p, a):", "    b = c = a", *helper, "    return a + b + c", "", ""]
    lines += ["@kernel", "def drawn(p):", "    a, b, c = p.pid, 1, p.step", *body, "    p.print(a, b, c)"]
    return "".join(f"{line}\n" for line in lines)
