"""Views and turns as a live session tells them, by what the package makes of them."""

from __future__ import annotations

from fannulavo import Message, NoSuchPlace, Send, Session, Turn, View
from talks import Ask


def row(word: str, *numbers: object) -> str:
    return " ".join(map(str, (word, *numbers))) + "\n"


def tagged(message: Message | Send) -> tuple[int, ...]:
    return (len(message.tag), *message.tag, *message.payload)


def text_of_view(view: View) -> str:
    rows = [row("args", *view.args), row("memory", *view.memory)]
    rows += [row("message", *tagged(message)) for message in view.queue]
    rows += [row("slot", slot, *area) for slot, area in enumerate(view.slots)]
    return "".join([*rows, row("tagsize", view.tag_size)])


def text_of_turn(turn: Turn) -> str:
    rows = [row("ended", turn.ended) if turn.ended else row("fault", turn.fault)]
    rows += [row("store", address, *words) for address, words in turn.stores]
    rows += [row("put", target, address, *words) for target, address, words in turn.puts]
    rows += [row("get", *get) for get in turn.gets]
    rows += [row("send", send.target, *tagged(send)) for send in turn.sends]
    rows += [row("push", *area) for area in turn.pushes] + [row("pop", slot) for slot in turn.pops]
    rows += [row("tagsize", turn.tag_size)] if turn.tag_size is not None else []
    rows += [row("print", *words) for words in turn.lines]
    return "".join([*rows, row("work", turn.work)])


def text_of_place(session: Session, ask: Ask) -> str:
    """What the tool says to a line that asks for a view or a turn, by what the session makes of it. A place that is
    none can't be asked for, so one that there is not stands for it."""
    place = ask.place or (0, 64)
    try:
        if ask.word == "view":
            return row("view", *place) + text_of_view(session.view(*place)) + "end\n"
        return row("turn", *place) + text_of_turn(session.turn(*place)) + "end\n"
    except NoSuchPlace:
        return "unread place\n"
