"""The end of a superstep, and runs superstep by superstep."""
from __future__ import annotations

from dataclasses import dataclass

from modelled.limits import MOST_SLOTS
from modelled.turns import Get, Message, Outcome, Program, Put, Send, Slot, View, Words, turn


def are_alike(items: list) -> bool:
    return all(item == items[0] for item in items)


def sync_fault(outcomes: list[Outcome], table: tuple[Slot, ...]) -> str | None:
    """The first fault of a superstep's end, where no process has a fault. There is none where all halt."""
    if any(o.syncs for o in outcomes) and not all(o.syncs for o in outcomes):
        return "S1"
    if not outcomes[0].syncs:
        return None
    if not are_alike([o.tag for o in outcomes]):
        return "S2"
    if not are_alike([o.pops for o in outcomes]):
        return "S3"
    if not are_alike([len(o.pushes) for o in outcomes]):
        return "S4"
    if len(next_table(outcomes, table)) > MOST_SLOTS:
        return "S5"
    return None


def next_table(outcomes: list[Outcome], table: tuple[Slot, ...]) -> tuple[Slot, ...]:
    """The slots that no pop names, and then one of the k-th pushes of all processes, for k = 0, 1, .."""
    kept = [areas for slot, areas in enumerate(table) if not any(slot in o.pops for o in outcomes)]
    pushed = [tuple(o.pushes[k] for o in outcomes) for k in range(len(outcomes[0].pushes))]
    return (*kept, *pushed)


@dataclass(frozen=True)
class Delivery:
    """All that a delivery to a process depends on."""

    memory: Words  # after computing
    gets: list[tuple[Get, Words]]  # its gets with the words that they read
    puts: list[tuple[int, Put]]  # the puts to it with their senders, by sender, then by issue
    sends: list[tuple[int, Send]]


def delivery_to(pid: int, outcomes: list[Outcome]) -> Delivery:
    own = outcomes[pid]
    return Delivery(
        own.memory,
        [(get, outcomes[get.owner].memory[get.start : get.start + get.length]) for get in own.gets],
        [(sender, put) for sender, o in enumerate(outcomes) for put in o.puts if put.target == pid],
        [(sender, send) for sender, o in enumerate(outcomes) for send in o.sends if send.target == pid],
    )


def next_word(delivery: Delivery, address: int) -> int:
    """The word of the last put that covers the address, else that of the last get, else the own word."""
    for _, put in reversed(delivery.puts):
        if put.start <= address < put.start + len(put.words):
            return put.words[address - put.start]
    for get, words in reversed(delivery.gets):
        if get.into <= address < get.into + len(words):
            return words[address - get.into]
    return delivery.memory[address]


def next_memory(delivery: Delivery) -> Words:
    return tuple(next_word(delivery, address) for address in range(len(delivery.memory)))


def next_queue(delivery: Delivery) -> tuple[Message, ...]:
    return tuple(send.message for _, send in delivery.sends)


def transfers(outcomes: list[Outcome]):
    """From which process to which, and how many words, for each request."""
    for pid, o in enumerate(outcomes):
        yield from ((pid, put.target, len(put.words)) for put in o.puts)
        yield from ((get.owner, pid, get.length) for get in o.gets)
        yield from ((pid, send.target, len(send.message.tag) + len(send.message.words)) for send in o.sends)


def h_relation(outcomes: list[Outcome], targets) -> int:
    """The largest number of words that a process sends to others or receives from others, of what goes to these processes."""
    moved = [transfer for transfer in transfers(outcomes) if transfer[0] != transfer[1] and transfer[1] in targets]
    sent = [sum(count for source, _, count in moved if source == pid) for pid in range(len(outcomes))]
    received = [sum(count for _, target, count in moved if target == pid) for pid in range(len(outcomes))]
    return max(sent + received)


@dataclass(frozen=True)
class Input:
    memories: tuple[Words, ...]
    args: tuple[Words, ...]
    limit: int
    g: int
    l: int  # noqa: E741


@dataclass(frozen=True)
class Superstep:
    views: list[View]
    outcomes: list[Outcome]
    is_delivered: bool


@dataclass(frozen=True)
class Run:
    """The supersteps of a run, the lines of the report that tell how it ended, the memories at its end, and the views of a superstep that was opened and
    whose turns were not taken."""

    input: Input
    supersteps: list[Superstep]
    status: list[str]
    memories: list[Words]
    opened: list[View]


@dataclass
class State:
    """What all processes see together in a superstep."""

    memories: list[Words]
    queues: list[tuple[Message, ...]]
    table: tuple[Slot, ...] = ()
    tag_size: int = 0

    def views(self, step: int, args: tuple[Words, ...]) -> list[View]:
        nprocs = len(self.memories)
        cells = enumerate(zip(self.memories, self.queues))
        return [View(nprocs, pid, step, args[pid], memory, self.table, self.tag_size, queue) for pid, (memory, queue) in cells]

    def after(self, outcomes: list[Outcome]) -> State:
        deliveries = [delivery_to(pid, outcomes) for pid in range(len(outcomes))]
        tag_size = self.tag_size if outcomes[0].tag is None else outcomes[0].tag
        return State([next_memory(d) for d in deliveries], [next_queue(d) for d in deliveries], next_table(outcomes, self.table), tag_size)


def end_of(step: int, outcomes: list[Outcome], table: tuple[Slot, ...]) -> list[str]:
    """How a superstep ends the run, as lines of the report; none where it ends by delivery."""
    if any(o.fault for o in outcomes):
        return [f"status faulted {step}", *(f"fault {pid} {o.fault}" for pid, o in enumerate(outcomes) if o.fault)]
    fault = sync_fault(outcomes, table)
    if fault:
        return [f"status syncfault {step} {fault}"]
    return [] if outcomes[0].syncs else ["status halted"]


def run(program: Program, given: Input) -> Run:
    """All turns of superstep after superstep, until one doesn't end by delivery or the limit is reached."""
    state = State(list(given.memories), [()] * len(given.memories))
    supersteps: list[Superstep] = []
    for step in range(given.limit):
        views = state.views(step, given.args)
        outcomes = [turn(program, view) for view in views]
        status = end_of(step, outcomes, state.table)
        supersteps.append(Superstep(views, outcomes, not status))
        if status:
            return Run(given, supersteps, status, [o.memory for o in outcomes], [])
        state = state.after(outcomes)
    return Run(given, supersteps, ["status limit"], state.memories, state.views(given.limit, given.args))
