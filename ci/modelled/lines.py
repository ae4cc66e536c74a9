"""What a live session says of its lines beside blocks: which lines there are, and on standard error why a line was not
read as a batch, or why its batch was refused."""
from __future__ import annotations

from modelled.runs import Input
from modelled.sessions import HIGHEST_PRICE, MOST_SUPERSTEPS, Edit
from modelled.shapes import is_integer

HELP = [
    "help",
    '[EDIT, ..]  a batch of edits; an EDIT is ["word", pid, addr, value], ["arg", pid, index, value],',
    '            ["limit", n] or ["prices", g, l]; a blank line is the batch without edits',
    "undo        takes back the last accepted batch that still stands",
    "document    writes the input as a document",
    "view S P    writes what process P saw in superstep S",
    "turn S P    writes what the turn of process P left in superstep S",
    "help        writes these lines",
    "end",
]
VALUES = {"word": "four", "arg": "four", "limit": "two", "prices": "three"}
NUMBERS = {"one": 1, "two": 2, "three": 3, "four": 4}


def escaped(text: str) -> str:
    """A text on one line: each control character as its code."""
    return "".join(f"\\u{{{ord(c):x}}}" if ord(c) < 32 or 127 <= ord(c) < 160 else c for c in text)


def named(edit, place: int) -> str:
    """An edit by its word, if it has one, and its place."""
    has_word = isinstance(edit, list) and edit and isinstance(edit[0], str)
    return f"{escaped(edit[0])}, edit {place}" if has_word else f"edit {place}"


def form_reason(edit) -> str:
    """Which form a value has not; nothing where it is an edit."""
    if not isinstance(edit, list) or not edit or not isinstance(edit[0], str):
        return "not an edit"
    if edit[0] not in VALUES:
        return "there is no such edit"
    wanted = VALUES[edit[0]]
    if len(edit) != NUMBERS[wanted]:
        return f"{wanted} values wanted"
    return "" if all(map(is_integer, edit[1:])) else "not an integer"


def sign_reason(edit) -> str:
    return "a negative number" if any(number < 0 for number in edit[1:]) else ""


def first_of(batch: list, reason) -> str:
    """The first edit for which there is a reason, and the reason."""
    return next((f"{named(edit, place)}: {reason(edit)}" for place, edit in enumerate(batch) if reason(edit)), "")


def value_reason(value) -> str:
    """Why the value on a line is no batch of edits (J3, J7)."""
    if not isinstance(value, list):
        return "not an array of edits"
    return first_of(value, form_reason) or first_of(value, sign_reason)


def bytes_reason(line: bytes) -> str:
    """Why bytes are no text, where they are none (J1)."""
    try:
        line.decode()
    except UnicodeDecodeError as error:
        return f"byte {error.start}: not UTF-8"
    return ""


def parts_reason(lists, kind: str, pid: int, place: int) -> str:
    """Which process, or which part of it, is not there."""
    if pid >= len(lists):
        return f"there are {len(lists)} processes"
    return f"process {pid} has {len(lists[pid])} {kind}" if place >= len(lists[pid]) else ""


def edit_reason(given: Input, part: str, numbers: list[int]) -> str:
    """Why an edit of an input is refused, if it is (E1 to E5)."""
    if part == "word":
        return parts_reason(given.memories, "words", *numbers[:2])
    if part == "arg":
        return parts_reason(given.args, "arguments", *numbers[:2])
    least, most = (1, MOST_SUPERSTEPS) if part == "limit" else (0, HIGHEST_PRICE)
    return next((f"{number}, not {least} to {most}" for number in numbers if not least <= number <= most), "")


def refusal_reason(given: Input, batch: list[Edit]) -> str:
    """Why a batch is refused, if it is."""
    return first_of([[edit.part, *edit.numbers] for edit in batch], lambda edit: edit_reason(given, edit[0], edit[1:]))
