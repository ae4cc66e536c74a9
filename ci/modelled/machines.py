"""The machine that follows the instructions of a kernel, with a memory and a queue of its own, and the same without the words of the memory."""
from __future__ import annotations

from modelled.turns import MODULUS, View

REGISTERS = 256

OPERATORS = {
    "add": lambda a, b: (a + b) % MODULUS,
    "sub": lambda a, b: (a - b) % MODULUS,
    "mul": lambda a, b: a * b % MODULUS,
    "div": lambda a, b: a // b if b else None,
    "rem": lambda a, b: a % b if b else None,
    "and": lambda a, b: a & b,
    "or": lambda a, b: a | b,
    "xor": lambda a, b: a ^ b,
    "shl": lambda a, b: (a << b) % MODULUS if b < 64 else 0,
    "shr": lambda a, b: a >> b if b < 64 else 0,
    "eq": lambda a, b: int(a == b),
    "ne": lambda a, b: int(a != b),
    "lt": lambda a, b: int(a < b),
    "le": lambda a, b: int(a <= b),
}
SOURCES = ("nprocs", "pid", "step", "memory_len", "tag_size", "messages_left", "words_left", "first_len", "first_tag_len")
INDEXED = ("first_tag", "taken", "argument", "constant")


class Ended(Exception):
    """How a turn ends: by sync, by halt, or by a number that is the code of an abort."""

    def __init__(self, how):
        super().__init__()
        self.how = how


class Everywhere(Exception):
    """A turn may look at any word."""


def there(word, code: int):
    """A word, or the end of the turn where it is missing."""
    if word is None:
        raise Ended(code)
    return word


def at(words, index: int):
    return words[index] if index < len(words) else None


def block(words, start: int, length: int):
    return there(list(words[start : start + length]) if start + length <= len(words) else None, 1)


class Machine:
    """The state of a turn, and the acts that were made so far."""

    def __init__(self, constants, view: View):
        self.constants, self.view = constants, view
        self.memory = list(view.memory)
        self.left = list(view.queue)
        self.message = ()  # the words of the message that was taken last
        self.registers = [0] * REGISTERS
        self.place = 0
        self.acts = []

    def words(self, first: int, count: int):
        return self.registers[first : first + count]

    def source(self, name: str, operands):
        """What a source gives, or None."""
        view, first = self.view, self.left[0] if self.left else None
        if name in INDEXED:
            words = {"first_tag": first.tag if first else (), "taken": self.message, "argument": view.args, "constant": self.constants}[name]
            return at(words, self.registers[operands[0]])
        return {
            "nprocs": view.nprocs,
            "pid": view.pid,
            "step": view.step,
            "memory_len": len(view.memory),
            "tag_size": view.tag_size,
            "messages_left": len(self.left),
            "words_left": sum(len(message.words) for message in self.left),
            "first_len": len(first.words) if first else 0,
            "first_tag_len": len(first.tag) if first else 0,
        }[name]

    def follow(self, name: str, operands) -> None:
        """Follows an instruction. Where it ends the turn, `Ended` is raised."""
        r = self.registers
        self.place += 1
        if name == "number":
            r[operands[0]] = operands[1]
        elif name == "copy":
            r[operands[0]] = r[operands[1]]
        elif name in OPERATORS:
            d, a, b = operands
            r[d] = there(OPERATORS[name](r[a], r[b]), 5)
        elif name in SOURCES or name in INDEXED:
            r[operands[0]] = there(self.source(name, operands[1:]), 2 if name == "argument" else 1)
        elif name == "load":
            r[operands[0]] = there(at(self.memory, r[operands[1]]), 1)
        elif name == "load_at":
            d, a, b = operands
            r[d] = there(at(self.memory, (r[a] + r[b]) % MODULUS), 1)
        elif name == "jump":
            self.place = operands[0]
        elif name == "unless":
            self.place = operands[1] if r[operands[0]] == 0 else self.place
        elif name == "unless_lt":
            a, b, to = operands
            self.place = self.place if r[a] < r[b] else to
        elif name in ("sync", "halt"):
            raise Ended(name)
        elif name == "abort":
            raise Ended(r[operands[0]])
        else:
            getattr(self, name)(*operands)

    def act(self, *act) -> None:
        self.acts.append(act)

    def put_stored(self, address: int, word: int) -> None:
        self.act("store", address, word)
        if address < len(self.memory):
            self.memory[address] = word

    def store(self, a, w):
        self.put_stored(self.registers[a], self.registers[w])

    def charge(self, n):
        self.act("charge", self.registers[n])

    def put_words(self, pid, words, area, offset):
        self.act("put", self.registers[pid], words, self.registers[area], self.registers[offset])

    def put(self, pid, first, count, area, offset):
        self.put_words(pid, self.words(first, count), area, offset)

    def put_block(self, pid, start, length, area, offset):
        self.put_words(pid, block(self.memory, self.registers[start], self.registers[length]), area, offset)

    def put_constants(self, pid, start, length, area, offset):
        self.put_words(pid, block(self.constants, self.registers[start], self.registers[length]), area, offset)

    def get(self, *operands):
        self.act("get", *(self.registers[each] for each in operands))

    def send_words(self, pid, tag, tag_len, words):
        self.act("send", self.registers[pid], self.words(tag, tag_len), words)

    def send(self, pid, tag, tag_len, first, count):
        self.send_words(pid, tag, tag_len, self.words(first, count))

    def send_block(self, pid, tag, tag_len, start, length):
        self.send_words(pid, tag, tag_len, block(self.memory, self.registers[start], self.registers[length]))

    def send_constants(self, pid, tag, tag_len, start, length):
        self.send_words(pid, tag, tag_len, block(self.constants, self.registers[start], self.registers[length]))

    def push_reg(self, start, length):
        self.act("push_reg", self.registers[start], self.registers[length])

    def pop_reg(self, start):
        self.act("pop_reg", self.registers[start])

    def set_tagsize(self, d, size):
        self.act("set_tagsize", self.registers[size])
        self.registers[d] = self.view.tag_size

    def print(self, first, count):
        self.act("print", self.words(first, count))

    def print_block(self, start, length):
        self.act("print", block(self.memory, self.registers[start], self.registers[length]))

    def take(self, d):
        words = self.left[0].words if self.left else ()
        self.act("move_into", len(words))
        self.message, self.left, self.registers[d] = words, self.left[1:], len(words)

    def store_taken(self, into, count):
        into, count = self.registers[into], self.registers[count]
        for i, word in enumerate(self.message[:count]):
            self.put_stored(into + i, word)


class Blind(Machine):
    """The machine without the words of its memory: it knows which registers depend on none of them."""

    def __init__(self, constants, view: View):
        super().__init__(constants, view)
        self.known = [True] * REGISTERS
        self.looked = []  # blocks of own words

    def needs(self, *registers) -> None:
        if not all(self.known[each] for each in registers):
            raise Everywhere

    def learn(self, d: int, word) -> None:
        self.registers[d], self.known[d] = word or 0, word is not None

    def follow(self, name: str, operands) -> None:
        r = self.registers
        if name in ("load", "load_at", "put_block", "send_block", "print_block"):
            self.look(name, operands)
        elif name in ("copy", *OPERATORS):
            d, *used = operands
            words = [r[each] for each in used]
            is_known = all(self.known[each] for each in used)
            self.learn(d, (words[0] if name == "copy" else OPERATORS[name](*words)) if is_known else None)
            self.place += 1
        elif name in INDEXED:
            d, index = operands
            self.learn(d, self.source(name, [index]) if self.known[index] else None)
            self.place += 1
        elif name in ("number", *SOURCES, "set_tagsize", "take"):
            super().follow(name, operands)
            self.known[operands[0]] = name != "words_left"
        elif name in ("jump", "unless", "unless_lt", "sync", "halt", "abort"):
            self.needs(*operands[: {"unless": 1, "unless_lt": 2}.get(name, 0)])
            super().follow(name, operands)
        else:
            self.place += 1

    def look(self, name: str, operands) -> None:
        """A word is loaded, or a block of own words is used."""
        if name in ("load", "load_at"):
            d, *used = operands
            self.needs(*used)
            self.looked.append((sum(self.registers[each] for each in used) % MODULUS, 1))
            self.learn(d, None)
        else:
            start, length = {"put_block": operands[1:3], "send_block": operands[3:5], "print_block": operands}[name]
            self.needs(start, length)
            self.looked.append((self.registers[start], self.registers[length]))
        self.place += 1
