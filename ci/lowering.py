"""Scripts, which list the calls of each turn, as kernels.

A script is a list of supersteps, a superstep a list of turns, by process, and a turn a list of calls. A call is a list of a name and its operands. A process
without a turn in a superstep halts there, and a turn that no call ends syncs. An operand is a number, "@A" for the own word A as it is then, or "$I" for
the own argument I. The calls are those of the instructions, with their operands in order, and lists of operands for words. Beside them there are five more.
`add` stores at A the own word A plus a value. `move_into` takes a message, and stores so many of its words at an address. `print_qsize`, `print_get_tag`
and `print_tag_size` print what these calls of a context answer.
"""
from __future__ import annotations

from assembling import ZERO, Assembly
from modelled.limits import MOST_TAG_WORDS

MOST_IN_REGISTERS = 100  # words of a list, else they have to be constants


def tag_sizes(script) -> list[int]:
    """The tag sizes that the script may choose, beside 0."""
    sizes = {call[1] for turns in script for calls in turns for call in calls if call[0] == "set_tagsize"}
    if any(isinstance(size, str) for size in sizes):
        return list(range(1, MOST_TAG_WORDS + 1))
    return sorted(size for size in sizes if 0 < size <= MOST_TAG_WORDS)


class Lowering:
    """The code of a script. Each call uses registers from 0 on."""

    def __init__(self, script):
        self.code = Assembly()
        self.sizes = tag_sizes(script)
        self.used = 0
        for step, turns in enumerate(script):
            self.superstep(step, turns)
        self.code.add("halt")

    def fresh(self) -> int:
        self.used += 1
        return self.used - 1

    def superstep(self, step: int, turns) -> None:
        following = self.code.new_place()
        self.choose("step", step, following)
        for pid, calls in enumerate(turns):
            other = self.code.new_place()
            self.choose("pid", pid, other)
            for call in calls:
                self.call(call)
            self.code.add("sync")
            self.code.mark(other)
        self.code.add("halt")
        self.code.mark(following)

    def choose(self, source: str, number: int, other: str) -> None:
        """Goes on where the source gives this number, else at another place."""
        self.code.add(source, 0)
        self.code.number(1, number)
        self.code.add("eq", 0, 0, 1)
        self.code.add("unless", 0, [other])

    def value(self, operand) -> int:
        """The register that has what an operand stands for."""
        if operand == 0:
            return ZERO
        register = self.fresh()
        if isinstance(operand, int):
            self.code.number(register, operand)
            return register
        self.code.number(register, int(operand[1:]))
        self.code.add("load" if operand[0] == "@" else "argument", register, register)
        return register

    def words(self, operands) -> tuple[int, int]:
        """The first of the registers in a row that have what operands stand for, and how many these are."""
        first = self.used
        self.used += len(operands)
        for register, operand in enumerate(operands, first):
            given = self.value(operand)
            self.code.add("copy", register, given)
        return first, len(operands)

    def call(self, call) -> None:
        self.used = 0
        name, *operands = call
        if hasattr(self, name):
            getattr(self, name)(*operands)
        else:
            self.code.add(name, *(self.value(operand) for operand in operands))

    def are_constants(self, operands) -> bool:
        """Whether words are handed on as constants, since there are more than registers hold."""
        if len(operands) <= MOST_IN_REGISTERS:
            return False
        assert all(isinstance(operand, int) for operand in operands), "too many words for registers"
        return True

    def constants(self, words) -> tuple[int, int]:
        """The registers that have the start and the number of words among the constants."""
        return self.value(self.code.constant(*words)), self.value(len(words))

    def put(self, pid, words, area, offset) -> None:
        pid = self.value(pid)
        if self.are_constants(words):
            start, length = self.constants(words)
            self.code.add("put_constants", pid, start, length, self.value(area), self.value(offset))
            return
        first, count = self.words(words)
        self.code.add("put", pid, first, count, self.value(area), self.value(offset))

    def send(self, pid, tag, words) -> None:
        pid, (tag, tag_len) = self.value(pid), self.words(tag)
        is_long = self.are_constants(words)
        self.code.add("send_constants" if is_long else "send", pid, tag, tag_len, *(self.constants if is_long else self.words)(words))

    def set_tagsize(self, size) -> None:
        register = self.value(size)
        self.code.add("set_tagsize", self.fresh(), register)

    def print(self, *words) -> None:
        self.code.add("print", *self.words(words))

    def add(self, address, value) -> None:
        at = self.value(address)
        word = self.fresh()
        self.code.add("load", word, at)
        self.code.add("add", word, word, self.value(value))
        self.code.add("store", at, word)

    def move_into(self, room, into) -> None:
        self.code.add("take", self.fresh())
        self.code.add("store_taken", self.value(into), self.value(room))

    def print_qsize(self) -> None:
        self.code.add("messages_left", 0)
        self.code.add("words_left", 1)
        self.code.add("print", 0, 2)

    def print_tag_size(self) -> None:
        self.code.add("tag_size", 0)
        self.code.add("print", 0, 1)

    def print_get_tag(self) -> None:
        """Prints the length of the first message's payload and the words of its tag, or an empty line where no message is left."""
        some, end = self.code.new_place(), self.code.new_place()
        self.code.add("first_len", 0)
        self.code.add("messages_left", 100)
        self.code.add("eq", 100, 100, ZERO)
        self.code.add("unless", 100, [some])
        self.code.add("print", 0, 0)
        self.code.add("jump", [end])
        self.code.mark(some)
        self.code.add("first_tag_len", 100)
        for size in self.sizes:
            other = self.code.new_place()
            self.code.number(101, size)
            self.code.add("eq", 101, 101, 100)
            self.code.add("unless", 101, [other])
            for index in range(size):
                self.code.number(102, index)
                self.code.add("first_tag", 1 + index, 102)
            self.code.add("print", 0, 1 + size)
            self.code.add("jump", [end])
            self.code.mark(other)
        self.code.add("print", 0, 1)
        self.code.mark(end)


def lowered(script) -> Assembly:
    """The kernel of a script."""
    return Lowering(script).code
