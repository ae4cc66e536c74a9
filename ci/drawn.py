"""Random documents, each a function of its tool and its seed: jobs mostly, and some that are none."""
import json
import random

from drawn_kernels import draw_kernel, with_kernel
from drawn_scripts import flooded, lengthened
from modelled.limits import HIGHEST_PRICE, MOST_ARGUMENTS, MOST_MEMORY_WORDS, MOST_PROCESSES, MOST_SUPERSTEPS

LARGEST = 2**63 - 1
LARGE_EACH = 15  # so many documents have one that is large


class Draw(random.Random):
    """A source of random values. The inputs that are drawn from a large one have many processes, or memories of several pages."""

    is_large = False

    def count(self, *counts):
        """A number of processes, of these mostly."""
        return self.choice((20, 33, MOST_PROCESSES)) if self.is_large and self.happens(0.7) else self.choice(counts)

    def length(self, *lengths):
        """A length of a memory or of a part of it, of these mostly; or one of more than a page, or of more than two."""
        return min(self.choice((70, 100, 130, 150)), MOST_MEMORY_WORDS) if self.is_large and self.happens(0.6) else self.choice(lengths)

    def happens(self, rate):
        return self.random() < rate

    def happens_to_one(self, rate, count):
        """What happens to each process at a rate happens to as many of a large input as of a small one."""
        return self.happens(rate * 5 / count if self.is_large else rate)

    def small(self):
        """A word that is small mostly."""
        return self.choice((LARGEST, LARGEST - 1, 2**62, 1000)) if self.happens(0.05) else self.randrange(5)

    def words(self, count):
        return [self.small() for _ in range(count)]


def draw_bundled(draw):
    """A bundled program with memories and arguments that mostly suit it."""
    program = draw.choice(("broadcast", "prefix", "matvec", "rank"))
    nprocs = draw.count(1, 2, 2, 3, 4, 5, 7)
    args = [[] for _ in range(nprocs)]
    if program == "broadcast":
        lengths = [draw.length(1, 1, 1, 2, 3) for _ in range(nprocs)]
        root = draw.randrange(nprocs)
        args = [[draw.randrange(nprocs + 1) if draw.happens_to_one(0.1, nprocs) else root] for _ in range(nprocs)]
    elif program == "matvec":
        b = draw.randrange(3)
        args = [[b] for _ in range(nprocs)]
        lengths = [b * nprocs * b + b + nprocs * b + b] * nprocs
    else:
        lengths = [2 if program == "prefix" else 4] * nprocs
    memories = [draw.words(length) for length in lengths]
    if program == "rank":
        for memory in memories:
            memory[0] = draw.randrange(nprocs + draw.happens_to_one(0.05, nprocs))
    return program, memories, args


def draw_heat(draw):
    """Rods of few cells, in pieces of one length or of any, for few time steps."""
    nprocs, length, steps = draw.count(*range(1, 6)), 2 if draw.happens(0.03) else draw.length(*range(3, 7)), draw.randrange(5)
    is_even = draw.happens(0.5)
    lengths = [length if is_even else 2 if draw.happens_to_one(0.02, nprocs) else draw.length(*range(3, 7)) for _ in range(nprocs)]
    memories = [[draw.choice((0, 0, 0, 10, 100, 1000, LARGEST)) for _ in range(count)] for count in lengths]
    args = [[steps + draw.happens_to_one(0.02, nprocs)] for _ in range(nprocs)]
    return "heat", memories, args


def draw_oddeven(draw):
    """Few words for each process, and mostly as many rounds as there are processes. Now and then a memory has a word more, or its own length."""
    nprocs, length = draw.count(*range(1, 7)), draw.length(0, 1, 2, 2, 4, 4, 6, 8)
    lengths = [draw.randrange(9) if draw.happens_to_one(0.03, nprocs) else length + draw.happens_to_one(0.1, nprocs) for _ in range(nprocs)]
    rounds = nprocs if draw.happens(0.5) else draw.randrange(nprocs + 3)
    memories = [[draw.choice((draw.small(), draw.randrange(100))) for _ in range(count)] for count in lengths]
    return "oddeven", memories, [[rounds + draw.happens_to_one(0.02, nprocs)] for _ in range(nprocs)]


def draw_samplesort(draw):
    """Blocks of any lengths, of few or of many different words, with room behind them or without. Now and then all words are equal, or there are many."""
    nprocs, most = draw.count(*range(1, 8)), draw.length(3, 8, 20, 100 if draw.happens(0.2) else 20)
    highest = draw.choice((1, 5, 1000, LARGEST))
    lengths = [0 if draw.happens(0.15) else draw.randrange(most + 1) for _ in range(nprocs)]
    memories = [[draw.randrange(highest) for _ in range(length)] for length in lengths]
    has_room = draw.happens(0.5)
    args = [[len(memory) + draw.happens_to_one(0.03, nprocs)] if has_room or draw.happens_to_one(0.03, nprocs) else [] for memory in memories]
    if has_room:
        memories = [memory + [0] * draw.randrange(2 * most) for memory in memories]
    return "samplesort", memories, args


def draw_parts(draw, nprocs):
    """An exchange of parts, whose lengths mostly are no more than the own words together."""
    memories = [draw.words(draw.randrange(12)) for _ in range(nprocs)]
    args = [[max(0, len(memory) - draw.randrange(3)) + draw.happens(0.03)] for memory in memories]
    lengths = [[draw.randrange(5) for _ in range(nprocs + draw.choice((0, 0, -1, 1)))] for _ in range(nprocs)]
    return "exchange_parts", memories, [own + parts for own, parts in zip(args, lengths)]


def draw_collective(draw):
    """A collective call, and memories that mostly have room for what arrives."""
    program = draw.choice(("broadcast", "broadcast_in_two", "scatter", "gather", "all_gather", "exchange", "reduce", "all_reduce", "scan"))
    nprocs = draw.count(1, 2, 3, 3, 4, 5, 7)
    combines = program in ("reduce", "all_reduce", "scan")
    if draw.happens(0.15):
        return draw_parts(draw, nprocs)
    count, root = draw.randrange(5), draw.randrange(nprocs)
    firsts = [draw.randrange(5)] * nprocs if combines else [count] * nprocs
    if draw.happens(0.3):
        firsts = [draw.randrange(6) for _ in range(nprocs)]
    roots = [draw.randrange(nprocs + 1) if draw.happens_to_one(0.03, nprocs) else root for _ in range(nprocs)]
    args = [[first, named] if program in ("broadcast", "broadcast_in_two", "scatter", "gather", "reduce") else [first] for first, named in zip(firsts, roots)]
    lengths = [2 if combines else max(0, first + sum(firsts) - draw.happens_to_one(0.05, nprocs)) for first in firsts]
    return program, [draw.words(length) for length in lengths], args


def draw_edit(draw, memories, args):
    """An edit of a part that mostly exists."""
    kind = draw.choice(("word",) * 6 + ("arg", "arg") * any(args) + ("limit", "prices"))
    if kind == "limit":
        return [kind, draw.choice((0, MOST_SUPERSTEPS + 1)) if draw.happens(0.05) else draw.randint(1, 9)]
    if kind == "prices":
        return [kind, HIGHEST_PRICE + 1 if draw.happens(0.05) else draw.randrange(5), draw.randrange(20)]
    lists = memories if kind == "word" else args
    known = [pid for pid, words in enumerate(lists) if words] or [0]
    pid = len(lists) if draw.happens(0.02) else draw.choice(known)
    count = len(lists[pid]) if pid < len(lists) else 1
    return [kind, pid, count if draw.happens(0.03) else draw.randrange(max(count, 1)), draw.small()]


def draw_batch(draw, memories, args):
    """Some edits, or one that all processes get."""
    if all(args) and draw.happens(0.15):
        value = draw.randrange(3)
        return [["arg", pid, 0, value] for pid in range(len(args))]
    return [draw_edit(draw, memories, args) for _ in range(draw.choice((0, 1, 1, 1, 2, 3)))]


DRAWN = {"bsp_tool": draw_bundled, "heat": draw_heat, "oddeven": draw_oddeven, "samplesort": draw_samplesort, "collectives": draw_collective, "bsp_kernel": draw_kernel}


def draw_values(draw, tool):
    """The values of a document's keys. Now and then an argument list or a memory loses its last word."""
    given, memories, args = DRAWN[tool](draw)
    keys = given if tool == "bsp_kernel" else {"program": given}
    for words in memories + args:
        if words and draw.happens_to_one(0.01, len(memories)):
            words.pop()
    limit = draw.randint(1, 5) if draw.happens(0.3) else draw.randint(6, MOST_SUPERSTEPS)
    values = {**keys, "limit": limit, "g": draw.randrange(5), "l": draw.randrange(20), "memory": memories, "args": args}
    if not any(args) and draw.happens(0.5):
        del values["args"]
    if draw.happens(0.9):
        values["batches"] = [draw_batch(draw, memories, args) for _ in range(draw.randrange(3 if draw.is_large else 6))]
    return values


def places_in(value, place=()):
    """The places of all that stands in arrays."""
    for index, each in enumerate(value if isinstance(value, list) else ()):
        yield (*place, index)
        yield from places_in(each, (*place, index))


OTHERS = (-1, -(2**63), 2**63, LARGEST, 0, 1, 1.5, True, "", "word", "@0", "@00", "$1", "$-1", "@9223372036854775808", [], [1], [[]], [[[]]], {})


def change_a_value(draw, values):
    """Another value somewhere, or one that is gone."""
    key = draw.choice(list(values))
    places = list(places_in(values[key]))
    if not places or draw.happens(0.1):
        values[key] = draw.choice(OTHERS)
        return
    *outer, last = draw.choice(places)
    value = values[key]
    for index in outer:
        value = value[index]
    if draw.happens(0.2):
        value.pop(last)
    else:
        value[last] = -1 if draw.happens(0.4) else draw.choice(OTHERS)


def change_a_key(draw, values):
    """A key that is gone, or one more."""
    if draw.happens(0.5):
        del values[draw.choice(list(values))]
    else:
        values[draw.choice(("colour", "Limit", "program", "kernel", "constants", "budget"))] = draw.choice(OTHERS)


def change_a_size(draw, values):
    """An input that is past a limit, or at it."""
    key, value = draw.choice(
        (
            ("memory", []),
            ("memory", [[1]] * MOST_PROCESSES),
            ("memory", [[1]] * (MOST_PROCESSES + 1)),
            ("memory", [[1] * MOST_MEMORY_WORDS]),
            ("memory", [[1] * (MOST_MEMORY_WORDS + 1)]),
            ("args", []),
            ("args", values.get("args", []) + [[0]]),
            ("args", [[1] * (MOST_ARGUMENTS + 1)] * len(values["memory"])),
            ("limit", draw.choice((0, MOST_SUPERSTEPS + 1, -1, LARGEST))),
            ("g", draw.choice((-1, HIGHEST_PRICE, HIGHEST_PRICE + 1))),
            ("l", draw.choice((-1, HIGHEST_PRICE, HIGHEST_PRICE + 1))),
        )
    )
    values[key] = value


def most_processes(draw, values):
    """As many processes as there may be, or nearly, with memories and arguments that are those of the first ones again."""
    count = MOST_PROCESSES - draw.randrange(2)
    for key in ("memory", "args"):
        if values.get(key):
            values[key] = (values[key] * count)[:count]


def most_words(draw, values):
    """A memory that is as long as may be, or nearly, or the same of all."""
    count = MOST_MEMORY_WORDS - draw.randrange(3)
    chosen = range(len(values["memory"])) if draw.happens(0.1) else [draw.randrange(len(values["memory"]))]
    for pid in chosen:
        memory = values["memory"][pid]
        values["memory"][pid] = memory + [draw.randrange(3)] * (count - len(memory))


def most_costs(draw, values):
    """The highest prices and the most supersteps, or nearly."""
    values["g"], values["l"] = HIGHEST_PRICE - draw.randrange(2), HIGHEST_PRICE - draw.randrange(2)
    values["limit"] = MOST_SUPERSTEPS - draw.randrange(2)


def most_steps(draw, values):
    """A number for argument 0 of all, which some programs take as that of their supersteps."""
    if values.get("args"):
        steps = draw.randrange(MOST_SUPERSTEPS // 20)
        values["args"] = [[steps, *args[1:]] for args in values["args"]]
        values["limit"] = steps + draw.randrange(4)


def most_arguments(draw, values):
    count = MOST_ARGUMENTS - draw.randrange(2)
    if values.get("args"):
        values["args"] = [args + [0] * (count - len(args)) for args in values["args"]]


def come_near(draw, values):
    """Makes a part of a job nearly as large as may be."""
    change = draw.choice((most_processes, most_words, most_words, most_costs, most_steps, most_arguments))
    if "script" in values and values["script"] and values["script"][0] and draw.happens(0.5):
        values["script"] = draw.choice((flooded, lengthened))(draw, values["script"])
    else:
        change(draw, values)


def text_of(values):
    return "".join(f"{key} = {json.dumps(value)}\n" for key, value in values.items())


def change_the_text(draw, text):
    """A text that is cut, or has other bytes, or says the same in another form."""
    at = draw.randrange(len(text) + 1)
    byte = draw.choice(b'[]",=#. \n\r\t0123456789-+_eax\'\x00\x7f\x80\xc3\xff').to_bytes(1, "big")
    return draw.choice(
        (
            text[:at],
            text[:at] + byte + text[at:],
            text[:at] + byte + text[at + 1 :],
            text[:at] + text[at + 1 :],
            text + text[:at],
            text.replace(b"\n", b"\r\n"),
            text.replace(b", ", b",\n  # more\n  "),
            b"\xef\xbb\xbf" + text,
            text.rstrip(b"\n"),
        )
    )


def drawn_document(tool, seed, is_near=False):
    """The document of a seed. Most are jobs; some have another value, key or size, and some another text. It can be wanted near the limits."""
    draw = Draw(f"{tool} {seed}")
    draw.is_large = seed % LARGE_EACH == 0
    values = draw_values(draw, tool)
    if is_near:
        come_near(draw, values)
    values = with_kernel(values)
    for change, rate in ((change_a_size, 0.08), (change_a_value, 0.1), (change_a_key, 0.05)):
        if draw.happens(rate):
            change(draw, values)
    text = text_of(values).encode()
    return change_the_text(draw, text) if draw.happens(0.1) else text
