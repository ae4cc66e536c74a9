"""What a run costs, and what an update of it costs."""
from __future__ import annotations

from collections.abc import Iterator
from dataclasses import replace

from modelled.causes import Place
from modelled.runs import Input, Run, Superstep, h_relation, next_table
from modelled.texts import line
from modelled.turns import Get, Outcome, Slot, Words

Row = tuple[int, int, int]  # work, h and cost


def priced(work: int, h: int, given: Input) -> Row:
    """The row of a superstep in which something is delivered."""
    return work, h, work + h * given.g + given.l


def cost_row(superstep: Superstep, given: Input) -> Row:
    work = max(o.work for o in superstep.outcomes)
    if not superstep.is_delivered:
        return work, 0, work
    return priced(work, h_relation(superstep.outcomes, range(len(superstep.outcomes))), given)


def cost_rows(made: Run) -> list[Row]:
    return [cost_row(superstep, made.input) for superstep in made.supersteps]


def read_words(outcomes: list[Outcome], get: Get) -> Words:
    return outcomes[get.owner].memory[get.start : get.start + get.length]


def travelling(before: Superstep | None, after: Superstep, turned: list[int], delivered: list[int]) -> Iterator[Outcome]:
    """The outcome of each process, with the requests alone that travel again."""
    for pid, own in enumerate(after.outcomes):
        puts = [put for put in own.puts if pid in turned and put.target in delivered]
        sends = [send for send in own.sends if pid in turned and send.target in delivered]
        gets = [get for get in own.gets if pid in turned or (before and read_words(before.outcomes, get) != read_words(after.outcomes, get))]
        yield replace(own, puts=puts, sends=sends, gets=gets)


def has_lost_requests(before: Superstep, after: Superstep, delivered: list[int]) -> bool:
    """A request of the run before to one of these processes is gone."""
    for pid, (old, new) in enumerate(zip(before.outcomes, after.outcomes)):
        if any(put.target in delivered and put not in new.puts for put in old.puts):
            return True
        if any(send.target in delivered and send not in new.sends for send in old.sends):
            return True
        if pid in delivered and any(get not in new.gets for get in old.gets):
            return True
    return False


def registers_others(before: Superstep, after: Superstep) -> bool:
    """The table or the tag size after the superstep is another."""
    return registered_after(before) != registered_after(after)


def registered_after(superstep: Superstep) -> tuple[tuple[Slot, ...], int]:
    view, tag = superstep.views[0], superstep.outcomes[0].tag
    return next_table(superstep.outcomes, view.table), view.tag_size if tag is None else tag


def update_row(before: Superstep | None, after: Superstep, given: Input, turned: list[int], delivered: list[int]) -> Row:
    """The row of a superstep in which these processes took their turns, and to these something was delivered. The run before had the superstep `before`."""
    work = max((after.outcomes[pid].work for pid in turned), default=0)
    if not after.is_delivered:
        return work, 0, work
    outcomes = list(travelling(before, after, turned, delivered))
    h = h_relation(outcomes, range(len(outcomes)))
    is_new = before is None or not before.is_delivered
    travels = any(own.puts or own.gets or own.sends for own in outcomes)
    is_paid = is_new or travels or has_lost_requests(before, after, delivered) or registers_others(before, after)
    return work, h, work + h * given.g + (given.l if is_paid else 0)


def pids_at(places: list[Place], step: int) -> list[int]:
    return [pid for at, pid in places if at == step]


def superstep_before(old: Run | None, step: int) -> Superstep | None:
    return old.supersteps[step] if old and step < len(old.supersteps) else None


def update_rows(old: Run | None, made: Run, executed: list[Place], redelivered: list[Place]) -> dict[int, Row]:
    """The rows of the supersteps in which something was done again. None is dearer than that of the run, and those of a first run are its rows."""
    rows = {}
    for step in sorted({step for step, _ in [*executed, *redelivered]}):
        places = pids_at(executed, step), pids_at(redelivered, step)
        rows[step] = update_row(superstep_before(old, step), made.supersteps[step], made.input, *places)
    whole = cost_rows(made)
    assert all(part <= of_all for step, row in rows.items() for part, of_all in zip(row, whole[step])), "an update is dearer than its run"
    assert old or [*rows.values()] == whole, "an opening has other rows than its run"
    return rows


def update_cost_lines(old: Run | None, made: Run, executed: list[Place], redelivered: list[Place]) -> list[str]:
    rows = update_rows(old, made, executed, redelivered)
    lines = [line("update", step, *row) for step, row in rows.items()]
    return [*lines, line("update", "total", sum(cost for _, _, cost in rows.values()))]
