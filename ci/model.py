#!/usr/bin/env python3
"""A plain model of the programs, written from docs/ and the definitions of specs/ alone, with which ci/random compares what was built.

usage: ci/model.py TOOL [--workers N] [--scratch] [--places] [--changes] [--why] [--update-cost] < DOCUMENT

TOOL is bsp_tool, heat, oddeven, samplesort, collectives or bsp_kernel. Report, fault line and exit status are those of the program of that name; the number of
workers counts for nothing, and the line that says where a document's fault is can't be had here. Every process of every superstep is run, what is
delivered is said word by word, and two whole runs are compared: nothing is reused, so the model is for small inputs. A run that halts is compared with
what can be said without processes: one of heat with the rod in one piece (modelled/rods.py), one of oddeven and one of samplesort with the words in order, one of a collective
call with what its name says (modelled/collectives.py). It reads TOML 1.0 by `tomllib`: what TOML 1.1 added (newlines in inline tables, `\\e`, `\\x`,
times without seconds) is refused here and not by the programs.
"""
from __future__ import annotations

import sys
from dataclasses import dataclass, fields
from functools import cached_property

sys.dont_write_bytecode = True

from modelled.causes import Place, why_lines  # noqa: E402
from modelled.costs import cost_rows, update_cost_lines  # noqa: E402
from modelled.documents import TOOLS, Job, Refused, job_of  # noqa: E402
from modelled.limits import MOST_DOCUMENT_BYTES  # noqa: E402
from modelled.runs import Input, Run, run  # noqa: E402
from modelled.sessions import Edit, places_executed, places_redelivered  # noqa: E402
from modelled.texts import line, text_of  # noqa: E402
from modelled.turns import Program  # noqa: E402


@dataclass(frozen=True)
class Options:
    """What the command line asks for."""

    scratch: bool = False
    places: bool = False
    changes: bool = False
    why: bool = False
    update_cost: bool = False

    @classmethod
    def words(cls) -> list[str]:
        return [f"--{each.name.replace('_', '-')}" for each in fields(cls)]

    @classmethod
    def of(cls, words) -> Options:
        return cls(*(word in words for word in cls.words()))

    def are_refused(self) -> bool:
        return self.scratch and (self.why or self.update_cost)


def total_line(made: Run) -> str:
    return line("total", sum(cost for _, _, cost in cost_rows(made)))


def print_lines(made: Run, pid: int) -> list[str]:
    """What a process printed."""
    return [line("print", pid, *words) for s in made.supersteps for words in s.outcomes[pid].lines]


def result_lines(made: Run) -> list[str]:
    """What a run gives: its status, the memories, what was printed, and the costs."""
    lines = [*made.status]
    lines += [line("memory", pid, *memory) for pid, memory in enumerate(made.memories)]
    for pid in range(len(made.memories)):
        lines += print_lines(made, pid)
    lines += [line("cost", step, *row) for step, row in enumerate(cost_rows(made))]
    return [*lines, total_line(made)]


def changed_lines(old: Run, new: Run) -> list[str]:
    """What a run gives, where it is another than what the run before gave; its status and its total in any case."""
    lines = [*new.status]
    lines += [line("memory", pid, *words) for pid, words in enumerate(new.memories) if words != old.memories[pid]]
    for pid in range(len(new.memories)):
        if print_lines(old, pid) != print_lines(new, pid):
            lines += print_lines(new, pid) or [line("silent", pid)]
    before, rows = cost_rows(old), cost_rows(new)
    lines += [line("cost", step, *row) for step, row in enumerate(rows) if step >= len(before) or before[step] != row]
    lines += [line("costs", len(rows))] if len(before) != len(rows) else []
    return [*lines, total_line(new)]


def place_lines(word: str, places: list[Place]) -> list[str]:
    """A line for each superstep in which there is a place, with its processes."""
    steps = sorted({step for step, _ in places})
    return [line(word, step, *sorted(pid for at, pid in places if at == step)) for step in steps]


@dataclass(frozen=True)
class Reply:
    """A run, and the run before it, if there was one."""

    program: Program
    old: Run | None
    new: Run

    @cached_property
    def executed(self) -> list[Place]:
        return places_executed(self.program, self.old, self.new)

    @cached_property
    def redelivered(self) -> list[Place]:
        return places_redelivered(self.old, self.new)

    def update_lines(self, options: Options) -> list[str]:
        """What of the run was made anew."""
        executed, redelivered, told = self.executed, self.redelivered, []
        if options.places or options.why:
            told += place_lines("turns", executed) + place_lines("deliveries", redelivered)
        if options.why:
            told += why_lines(self.program, self.old, self.new, executed, redelivered)
        if options.update_cost:
            told += update_cost_lines(self.old, self.new, executed, redelivered)
        return [*told, line("executed", len(executed), "redelivered", len(redelivered))]

    def lines(self, options: Options) -> list[str]:
        told = changed_lines(self.old, self.new) if options.changes and self.old else result_lines(self.new)
        return told if options.scratch else [*told, *self.update_lines(options)]


def refusal(batch: list[Edit], given: Input) -> list[str]:
    """The line of a batch that is refused; none where it is accepted."""
    refusals = [(edit.fault(given), place) for place, edit in enumerate(batch) if edit.fault(given)]
    return [line("refused", refusals[0][0], "at", refusals[0][1])] if refusals else []


def replies_to(job: Job) -> list[Reply | list[str]]:
    """The reply to the input, and then one to each batch, which is made on what the accepted batches before it left; or the line of its refusal."""
    made: Run | None = None
    given = job.input
    replies: list[Reply | list[str]] = []
    for batch in [[], *job.batches]:
        refused = refusal(batch, given)
        if refused:
            replies.append(refused)
            continue
        for edit in batch:
            given = edit.make(given)
        old, made = made, run(job.program, given)
        job.program.check(made)
        replies.append(Reply(job.program, old, made))
    return replies


def report_of(replies: list[Reply | list[str]], options: Options) -> str:
    """A block for each reply."""
    blocks = [reply.lines(options) if isinstance(reply, Reply) else reply for reply in replies]
    return "".join(text_of([line("run", number), *block]) for number, block in enumerate(blocks))


@dataclass(frozen=True)
class Answer:
    """What a tool writes to standard output, the fault line on standard error, and the exit status."""

    report: str
    error: str
    status: int


def answers(tool: str, document: bytes, options: list[Options]) -> list[Answer]:
    """The answer with each of these options, which are not refused."""
    if len(document) > MOST_DOCUMENT_BYTES:
        return [Answer("", "fault long\n", 3)] * len(options)
    try:
        replies = replies_to(job_of(TOOLS[tool], document))
    except Refused as fault:
        return [Answer("", f"fault {fault}\n", 3)] * len(options)
    return [Answer(report_of(replies, each), "", 0) for each in options]


def answer(tool: str, document: bytes, **options: bool) -> Answer:
    """The answer with these of Options."""
    return answers(tool, document, [Options(**options)])[0]


def reports_with(tool: str, document: bytes, lists) -> dict[tuple[str, ...], bytes]:
    """The report with each of these lists of words of Options."""
    given = answers(tool, document, [Options.of(words) for words in lists])
    return {tuple(words): each.report.encode() for words, each in zip(lists, given)}


def main(words: list[str]) -> int:
    options = Options.of(words)
    if not words or words[0] not in TOOLS or options.are_refused():
        print(__doc__, end="", file=sys.stderr)
        return 2
    given = answer(words[0], sys.stdin.buffer.read(), **vars(options))
    sys.stdout.write(given.report)
    sys.stderr.write(given.error)
    return given.status


if __name__ == "__main__":
    sys.exit(main(sys.argv[1:]))
