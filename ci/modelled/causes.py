"""Why the turns of an update were taken, and why its deliveries were made, as words of the report."""
from __future__ import annotations

from modelled.runs import Delivery, Run, delivery_to
from modelled.texts import line
from modelled.turns import Outcome, Program, View

Place = tuple[int, int]  # a superstep and a process


def other_words(program: Program, old: View, new: View) -> list[int]:
    """The addresses at which the program looks at the old view, and whose words are others."""
    return [address for address, word in enumerate(old.memory) if program.looks(old, address) and new.memory[address] != word]


def numbered(word: str, numbers: list[int]) -> list[str]:
    return [word, *map(str, numbers)] if numbers else []


def view_causes(program: Program, old: View, new: View) -> list[str]:
    """Each part of a view that is another."""
    parts = {"args": old.args != new.args, "queue": old.queue != new.queue, "table": old.table != new.table, "tagsize": old.tag_size != new.tag_size}
    return [*(word for word, is_another in parts.items() if is_another), *numbered("word", other_words(program, old, new))]


def turn_causes(program: Program, old: Run | None, new: Run, place: Place) -> list[str]:
    """Why a turn of the new run was taken; nothing where the old run has a turn there that serves."""
    step, pid = place
    if old is None or step >= len(old.supersteps):
        return ["new"]
    return view_causes(program, old.supersteps[step].views[pid], new.supersteps[step].views[pid])


def owners_of_others(old: Delivery, new: Delivery) -> list[int]:
    """The owners of which equal gets read other words."""
    return sorted({get.owner for (get, before), (_, after) in zip(old.gets, new.gets) if before != after})


def others_from(old: list[tuple], new: list[tuple], count: int) -> list[int]:
    """The senders whose puts, or messages, are another list."""
    return [pid for pid in range(count) if [each for sender, each in old if sender == pid] != [each for sender, each in new if sender == pid]]


def parcel_causes(pid: int, before: list[Outcome], after: list[Outcome]) -> list[str]:
    """Each part on which a delivery depends, and that is another."""
    old, new = delivery_to(pid, before), delivery_to(pid, after)
    has_same_gets = before[pid].gets == after[pid].gets
    causes = ["memory"] if old.memory != new.memory else []
    causes += numbered("read", owners_of_others(old, new)) if has_same_gets else ["gets"]
    return [*causes, *numbered("puts", others_from(old.puts, new.puts, len(after))), *numbered("sends", others_from(old.sends, new.sends, len(after)))]


def delivery_causes(old: Run | None, new: Run, place: Place) -> list[str]:
    """Why a delivery of the new run was made; nothing where the old run made the same one."""
    step, pid = place
    if old is None or step >= len(old.supersteps) or not old.supersteps[step].is_delivered:
        return ["new"]
    return parcel_causes(pid, old.supersteps[step].outcomes, new.supersteps[step].outcomes)


def all_turns(run: Run) -> list[Place]:
    return [(step, pid) for step, superstep in enumerate(run.supersteps) for pid in range(len(superstep.outcomes))]


def all_deliveries(run: Run) -> list[Place]:
    return [(step, pid) for step, pid in all_turns(run) if run.supersteps[step].is_delivered]


def why_lines(program: Program, old: Run | None, new: Run, executed: list[Place], redelivered: list[Place]) -> list[str]:
    """A line for each turn that was taken, and then for each delivery that was made. A place that is none of these has no cause."""
    turns = {place: turn_causes(program, old, new, place) for place in all_turns(new)}
    deliveries = {place: delivery_causes(old, new, place) for place in all_deliveries(new)}
    assert [place for place, causes in turns.items() if causes] == executed, "other turns have a cause"
    assert [place for place, causes in deliveries.items() if causes] == redelivered, "other deliveries have a cause"
    told = [("turn", place, turns[place]) for place in executed] + [("delivery", place, deliveries[place]) for place in redelivered]
    return [line("why", what, *place, *causes) for what, place, causes in told]
