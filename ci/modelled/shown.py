"""What a live session writes of a view and of a turn."""
from __future__ import annotations

from modelled.runs import Run
from modelled.texts import line
from modelled.turns import Message, Outcome, View

WORDS = ("view", "turn")  # of the lines that ask for one


def message_words(message: Message) -> tuple[int, ...]:
    """The number of words of the tag, the tag, and the payload."""
    return (len(message.tag), *message.tag, *message.words)


def view_lines(view: View) -> list[str]:
    lines = [line("args", *view.args), line("memory", *view.memory)]
    lines += [line("message", *message_words(message)) for message in view.queue]
    areas = [areas[view.pid] for areas in view.table]
    lines += [line("slot", slot, area.start, area.length) for slot, area in enumerate(areas)]
    return [*lines, line("tagsize", view.tag_size)]


def ranges_of(stores: list[tuple[int, int]]) -> list[list[int]]:
    """An address and the words that were stored there and behind it, each directly after the word before it."""
    ranges: list[list[int]] = []
    for address, word in stores:
        if ranges and ranges[-1][0] + len(ranges[-1]) - 1 == address:
            ranges[-1].append(word)
        else:
            ranges.append([address, word])
    return ranges


def turn_lines(outcome: Outcome) -> list[str]:
    lines = [line("fault", outcome.fault) if outcome.fault else line("ended", "sync" if outcome.syncs else "halt")]
    lines += [line("store", *words) for words in ranges_of(outcome.stores)]
    lines += [line("put", put.target, put.start, *put.words) for put in outcome.puts]
    lines += [line("get", get.owner, get.start, get.length, get.into) for get in outcome.gets]
    lines += [line("send", send.target, *message_words(send.message)) for send in outcome.sends]
    lines += [line("push", area.start, area.length) for area in outcome.pushes]
    lines += [line("pop", slot) for slot in outcome.pops]
    lines += [line("tagsize", outcome.tag)] if outcome.tag is not None else []
    lines += [line("print", *words) for words in outcome.lines]
    return [*lines, line("work", outcome.work)]


def views_of(made: Run) -> list[list[View]]:
    """The views of each superstep that was opened."""
    return [superstep.views for superstep in made.supersteps] + ([made.opened] if made.opened else [])


def shown_at(made: Run, word: str, step: int, pid: int) -> list[str]:
    """The lines of the view or the turn of a place; none where it is not there."""
    if word == "view":
        rows, lines_of = views_of(made), view_lines
    else:
        rows, lines_of = [superstep.outcomes for superstep in made.supersteps], turn_lines
    return lines_of(rows[step][pid]) if step < len(rows) and pid < len(rows[step]) else []


def shown(made: Run, word: str, place: tuple[int, int] | None) -> list[str]:
    """The answer to a line with one of WORDS and a superstep and a process, or with what is no place."""
    lines = shown_at(made, word, *place) if place else []
    return [line(word, *place), *lines, "end"] if lines else ["unread place"]
