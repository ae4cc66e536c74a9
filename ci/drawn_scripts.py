"""Random scripts, most of whose calls pass their checks, so that runs go on for several supersteps."""

from modelled.limits import MOST_LINE_WORDS, MOST_LINES, MOST_PAYLOAD_WORDS, MOST_REQUESTS, MOST_SLOTS, MOST_TAG_WORDS, MOST_WORK

# Calls, and how many of each may stand in a turn.
FLOODS = (
    (["push_reg", 0, 0], MOST_REQUESTS),
    (["send", 0, [], []], MOST_REQUESTS),
    (["print"], MOST_LINES),
    (["print"], MOST_LINES),
    (["push_reg", 0, 0], MOST_SLOTS),
)


class Scripter:
    """Draws a script superstep by superstep. It knows which areas are registered, how long tags are and how many messages wait, as long as no fault and
    no edit has ended or changed the run."""

    def __init__(self, draw):
        self.draw = draw
        self.nprocs = draw.choice((1, 2, 2, 3, 3, 4))
        size = draw.length(*range(1, 6))
        self.sizes = [draw.randint(0, 5) if draw.happens(0.1) else size for _ in range(self.nprocs)]
        self.memories = [draw.words(size) for size in self.sizes]
        self.shared = draw.randrange(3)  # argument 0 of all
        self.args = [[self.shared, *draw.words(draw.randrange(3))] for _ in range(self.nprocs)]
        self.fault_rate = draw.choice((0, 0, 0.01, 0.03))
        self.reference_rate = draw.choice((0.1, 0.4, 0.7))
        self.slots = []  # each with an area (start, length) for each process
        self.tag_size = 0
        self.waiting = [0] * self.nprocs
        self.sent = [0] * self.nprocs

    def script(self):
        return [self.superstep() for _ in range(self.draw.randint(2, 7))]

    def superstep(self):
        draw = self.draw
        pushed = [[self.area(pid) for pid in range(self.nprocs)] for _ in range(draw.choice((0, 1, 2) if self.slots else (1, 1, 2)))]
        pops = min(draw.choice((0, 0, 1, 1, 2)), len(self.slots)) if len(self.slots) > draw.randrange(3) else 0
        tag_size = draw.choice((None, None, None, 0, 1, self.shared))
        turns = [self.turn(pid, pushed, pops, tag_size) for pid in range(self.nprocs)]
        if draw.happens(0.1):
            turns.append([["put", 9, [1], 0, 0]])  # of a process that there is not
        if draw.happens(self.fault_rate):
            turns.pop()
        self.slots = self.slots[: len(self.slots) - pops] + pushed
        self.tag_size = self.tag_size if tag_size is None else tag_size
        self.waiting, self.sent = self.sent, [0] * self.nprocs
        return turns

    def area(self, pid):
        start = self.draw.randint(0, self.sizes[pid]) if self.draw.happens(0.3) else 0
        rest = self.sizes[pid] - start
        return start, self.draw.randint(0, rest) if self.draw.happens(0.2) else rest

    def turn(self, pid, pushed, pops, tag_size):
        """The calls that all processes make alike, with calls of the process's own before, between and after them."""
        draw = self.draw
        common = [["push_reg", *areas[pid]] for areas in pushed]
        common += [["pop_reg", self.slots[-1 - k][pid][0]] for k in range(pops)]
        common += [["set_tagsize", tag_size]] if tag_size is not None else []
        if draw.happens(0.15):
            common = [[name, *(self.value(pid, number) for number in numbers)] for name, *numbers in common]
        if common and draw.happens(2 * self.fault_rate):
            name = draw.choice(sorted({call[0] for call in common}))
            common.remove(next(call for call in common if call[0] == name))
        own = [self.faulty_call(pid) if draw.happens(self.fault_rate) else self.call(pid) for _ in range(draw.randrange(6))]
        calls = []
        while common or own:
            rest = common if not own or (common and draw.happens(0.5)) else own
            calls.append(rest.pop(0))
        if draw.happens(0.2):
            calls.append(["sync"])
        if draw.happens(self.fault_rate):
            calls.insert(draw.randint(0, len(calls)), draw.choice((["halt"], ["sync"], ["abort", 7], ["abort", "@0"])))
        return calls

    def value(self, pid, number):
        """The number, or a reference to a word or an argument that has it at the beginning."""
        named = [f"@{a}" for a, word in enumerate(self.memories[pid]) if word == number]
        named += [f"${i}" for i, word in enumerate(self.args[pid]) if word == number]
        return self.draw.choice(named) if named and self.draw.happens(self.reference_rate / 4) else number

    def word(self, pid):
        """Any word."""
        if self.sizes[pid] and self.draw.happens(self.reference_rate):
            return f"@{self.draw.randrange(self.sizes[pid])}"
        return self.value(pid, self.draw.small())

    def words(self, pid, most):
        return [self.word(pid) for _ in range(self.draw.randint(0, most))]

    def call(self, pid):
        """A call that passes its checks, if all went as was known."""
        names = ["send", "send", "charge", "print", "print_qsize", "print_get_tag", "print_tag_size"]
        names += ["store", "store", "add"] * bool(self.sizes[pid])
        names += ["put", "put", "get"] * 3 * bool(self.slots)
        names += ["move_into", "move_into"] * bool(self.waiting[pid])
        name = self.draw.choice(names)
        return [name] if name.startswith("print_") else getattr(self, name)(pid)

    def store(self, pid):
        return ["store", self.value(pid, self.draw.randrange(self.sizes[pid])), self.word(pid)]

    def add(self, pid):
        return ["add", self.draw.randrange(self.sizes[pid]), self.word(pid)]

    def charge(self, pid):
        return ["charge", self.value(pid, self.draw.randrange(9))]

    def print(self, pid):
        return ["print", *self.words(pid, 3)]

    def send(self, pid):
        target = self.draw.randrange(self.nprocs)
        self.sent[target] += 1
        tag = [self.word(pid) for _ in range(self.tag_size)]
        return ["send", self.value(pid, target), tag, self.words(pid, 3)]

    def move_into(self, pid):
        self.waiting[pid] -= 1
        into = self.draw.randint(0, self.sizes[pid])
        return ["move_into", self.draw.randint(0, min(3, self.sizes[pid] - into)), into]

    def target(self, pid, other):
        """The start of an own area, and the length of the other process's area in the slot that it names."""
        start = self.draw.choice(self.slots)[pid][0]
        newest = [areas for areas in self.slots if areas[pid][0] == start][-1]
        return start, newest[other][1]

    def put(self, pid):
        other = self.draw.randrange(self.nprocs)
        start, length = self.target(pid, other)
        words = self.words(pid, min(3, length))
        offset = self.draw.randint(0, length - len(words))
        return ["put", self.value(pid, other), words, self.value(pid, start), self.value(pid, offset)]

    def get(self, pid):
        other = self.draw.randrange(self.nprocs)
        start, length = self.target(pid, other)
        count = self.draw.randint(0, min(length, self.sizes[pid]))
        numbers = (other, start, self.draw.randint(0, length - count), self.draw.randint(0, self.sizes[pid] - count), count)
        return ["get", *(self.value(pid, number) for number in numbers)]

    def faulty_call(self, pid):
        """A call that has a fault, or two."""
        size = self.sizes[pid]
        start = self.slots[0][pid][0] if self.slots else 0
        no_tag = [0] * (self.tag_size + 1)
        return self.draw.choice(
            (
                ["abort", self.word(pid)],
                ["store", f"@{size}", 1],
                ["charge", "$3"],
                ["add", size, "$9"],
                ["add", 0, "$9"],
                ["put", self.nprocs, [1], 9, 9],
                ["put", 0, [1, f"@{size}"], start, 0],
                ["put", 0, [], 7, 9],
                ["put", 0, [1], start, 6],
                ["put", 0, [], start, 2**63 - 1],
                ["get", self.nprocs, 9, 9, 9, 9],
                ["get", 0, 7, 9, 9, 9],
                ["get", 0, start, 0, 9, 9],
                ["get", 0, start, 0, size + 1, 0],
                ["send", self.nprocs, no_tag, []],
                ["send", 0, no_tag, [1]],
                ["send", 0, no_tag, []],
                ["send", 0, [0] * self.tag_size, [0] * (MOST_PAYLOAD_WORDS + 1)],
                ["store", size, 1],
                ["charge", MOST_WORK + 1],
                ["push_reg", size, 1],
                ["pop_reg", 7],
                ["set_tagsize", MOST_TAG_WORDS + 1],
                ["set_tagsize", 2**63 - 1],
                ["print", *[1] * (MOST_LINE_WORDS + 1)],
                ["move_into", MOST_PAYLOAD_WORDS + 1, 0],
                ["move_into", 3, max(size - 1, 0)],
            )
        )


def flooded(draw, script):
    """The script with more calls in a turn than a limit allows, or as many."""
    calls = draw.choice(script[0])
    call, most = draw.choice(FLOODS)
    calls[0:0] = [call] * (most + draw.choice((-2, -1, 0, 1, 1)))
    return script


def lengthened(draw, script):
    """The script with a call in a turn that asks for as much as a limit allows, or nearly."""
    calls, less = draw.choice(script[0]), draw.randrange(2)
    longest = (
        ["send", 0, [], [draw.randrange(9)] * (MOST_PAYLOAD_WORDS - less)],
        ["print", *[1] * (MOST_LINE_WORDS - less)],
        ["set_tagsize", MOST_TAG_WORDS - less],
        ["charge", MOST_WORK - less],
    )
    calls.insert(0, draw.choice(longest))
    return script


def draw_script(draw):
    """A script, with the memories and the arguments of its processes."""
    scripter = Scripter(draw)
    script = scripter.script()
    if script[0] and draw.happens(0.05):
        script = flooded(draw, script)
    return script, scripter.memories, scripter.args
