"""Collective calls as programs, and, without processes or supersteps, what each of them brings."""
from __future__ import annotations

from dataclasses import dataclass

from modelled.runs import Run
from modelled.turns import HALT, MODULUS, SYNC, Abort, Context, Program, View


def sum_of(words: list[int]) -> int:
    return sum(words) % MODULUS


def bits_of_any(words: list[int]) -> int:
    return sum(2**k for k in range(64) if any(word >> k & 1 for word in words))


def bits_of_all(words: list[int]) -> int:
    return sum(2**k for k in range(64) if all(word >> k & 1 for word in words))


OPERATIONS = (
    sum_of,
    lambda words: min(words, default=MODULUS - 1),
    lambda words: max(words, default=0),
    bits_of_any,
    bits_of_all,
)


def block_size(count: int, nprocs: int) -> int:
    """How many words each process gets where so many are dealt: the first ones alike, and the last what is left."""
    return next(size for size in range(count + 1) if size * nprocs >= count)


def block(words, nprocs: int, place: int) -> list[int]:
    size = block_size(len(words), nprocs)
    return list(words[place * size : (place + 1) * size])


def send(ctx: Context, pid: int, words: list[int]) -> None:
    ctx.send(pid, [0] * ctx.view.tag_size, words)


def received(ctx: Context) -> list[int]:
    """The words of all messages, one message after the other."""
    words = []
    while ctx.left:
        words += ctx.move_into(len(ctx.left[0].words))
    return words


def root_in(args) -> int:
    """Argument 1 is the root. Where it is missing, process 0 is."""
    return args[1] if len(args) > 1 else 0


@dataclass(frozen=True)
class Moving(Program):
    """Argument 0 is the number of own words, which are the first of the memory; argument 1 is the root. What arrives is stored after the own words, and
    printed."""

    call: str

    @property
    def has_root(self) -> bool:
        return self.call in ("broadcast", "broadcast_in_two", "scatter", "gather")

    def step(self, ctx: Context) -> bool:
        count = ctx.argument(0)
        if ctx.view.step == 0:
            words = [ctx.load(address) for address in range(min(count, len(ctx.memory) + 1))]
            self.send_own(ctx, words, root_in(ctx.view.args))
            return SYNC
        words = received(ctx)
        if ctx.view.step == 1 and self.call == "broadcast_in_two":
            for pid in range(ctx.view.nprocs):
                send(ctx, pid, words)
            return SYNC
        for place, word in enumerate(words):
            ctx.store(count + place, word)
        ctx.print(words)
        return HALT

    def send_own(self, ctx: Context, words: list[int], root: int) -> None:
        own, everyone = ctx.view.pid, range(ctx.view.nprocs)
        if self.call == "gather":
            send(ctx, root, words)
        if self.call == "all_gather" or (self.call == "broadcast" and own == root):
            for pid in everyone:
                send(ctx, pid, words)
        if self.call == "exchange" or (self.call in ("scatter", "broadcast_in_two") and own == root):
            for pid in everyone:
                send(ctx, pid, block(words, len(everyone), pid))

    def looks(self, view: View, address: int) -> bool:
        if view.step > 0 or not view.args or address >= view.args[0]:
            return False
        tells = not self.has_root or self.call == "gather"
        return tells or view.pid == root_in(view.args)

    def brings(self, owned: list, root: int) -> list[list[int]]:
        """What each process prints, of the words that each owns."""
        pids = range(len(owned))
        whole = [word for words in owned for word in words]
        if self.call in ("broadcast", "broadcast_in_two"):
            return [list(owned[root])] * len(owned)
        if self.call == "scatter":
            return [block(owned[root], len(owned), pid) for pid in pids]
        if self.call == "gather":
            return [whole if pid == root else [] for pid in pids]
        if self.call == "all_gather":
            return [whole] * len(owned)
        return [[word for words in owned for word in block(words, len(owned), pid)] for pid in pids]

    def check(self, made: Run) -> None:
        """Where all name one process as the root and nothing faults, each process prints what the name of the call says."""
        if made.status != ["status halted"]:
            return
        args = made.input.args
        roots = {root_in(words) for words in args} if self.has_root else {0}
        if len(roots) == 1 and max(roots) < len(args):
            owned = [memory[: words[0]] for memory, words in zip(made.input.memories, args)]
            check_printed(made, self.brings(owned, max(roots)))


@dataclass(frozen=True)
class Combining(Program):
    """Argument 0 is the operation; argument 1 is the root of a reduce. Word 0 is the own word. What is made of the words that arrive becomes word 1 and is
    printed."""

    call: str

    def step(self, ctx: Context) -> bool:
        code = ctx.argument(0)
        if code >= len(OPERATIONS):
            raise Abort(3)
        if ctx.view.step > 0:
            made = OPERATIONS[code](received(ctx))
            ctx.store(1, made)
            ctx.print([made])
            return HALT
        word = ctx.load(0)
        if self.call == "reduce":
            send(ctx, root_in(ctx.view.args), [word])
            return SYNC
        for pid in range(ctx.view.pid if self.call == "scan" else 0, ctx.view.nprocs):
            send(ctx, pid, [word])
        return SYNC

    def looks(self, view: View, address: int) -> bool:
        return view.step == 0 and address == 0

    def tells(self, teller: int, pid: int, args: tuple) -> bool:
        """Whether a process tells its word to another."""
        if self.call == "reduce":
            return root_in(args[teller]) == pid
        return self.call == "all_reduce" or teller <= pid

    def check(self, made: Run) -> None:
        """Where nothing faults, each process prints what the name of the call says."""
        if made.status == ["status halted"]:
            words, args = [memory[0] for memory in made.input.memories], made.input.args
            told = [[word for teller, word in enumerate(words) if self.tells(teller, pid, args)] for pid in range(len(words))]
            check_printed(made, [[OPERATIONS[args[pid][0]](of_pid)] for pid, of_pid in enumerate(told)])


def parts_of(words, args, nprocs: int) -> list[list[int]]:
    """The words in parts, one after the other, whose lengths are the arguments after the first, or 0 where there are none."""
    parts, left = [], list(words)
    for pid in range(nprocs):
        length = args[pid + 1] if pid + 1 < len(args) else 0
        parts.append(left[:length])
        left = left[length:]
    return parts


class Parting(Program):
    """Argument 0 is the number of own words, which are the first of the memory; they are dealt in parts of the lengths that the arguments after it name.
    Each part that arrives is printed."""

    def step(self, ctx: Context) -> bool:
        count = ctx.argument(0)
        if ctx.view.step > 0:
            for words in [ctx.move_into(len(message.words)) for message in list(ctx.left)]:
                ctx.print(words)
            return HALT
        words = [ctx.load(address) for address in range(min(count, len(ctx.memory) + 1))]
        for pid, part in enumerate(parts_of(words, ctx.view.args, ctx.view.nprocs)):
            send(ctx, pid, part)
        return SYNC

    def looks(self, view: View, address: int) -> bool:
        return view.step == 0 and bool(view.args) and address < view.args[0]

    def check(self, made: Run) -> None:
        """Where nothing faults, all own words that the lengths reach are printed once."""
        if made.status == ["status halted"]:
            reached = [memory[: min(args[0], sum(args[1 : len(made.memories) + 1]))] for memory, args in zip(made.input.memories, made.input.args)]
            printed = [word for o in made.supersteps[-1].outcomes for line in o.lines for word in line]
            assert sorted(printed) == sorted(word for words in reached for word in words), "other words are printed"


def check_printed(made: Run, wanted: list[list[int]]) -> None:
    printed = [[list(line) for line in o.lines] for o in made.supersteps[-1].outcomes]
    assert printed == [[line] for line in wanted], f"{printed} in place of {wanted}"


MOVING = ("broadcast", "broadcast_in_two", "scatter", "gather", "all_gather", "exchange")
COMBINING = ("reduce", "all_reduce", "scan")
COLLECTIVES = {**{call: Moving(call) for call in MOVING}, **{call: Combining(call) for call in COMBINING}, "exchange_parts": Parting()}
