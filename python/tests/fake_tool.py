#!/usr/bin/env python3
"""A tool that answers by the plain model of ci/, with which clients are tested where no built tool is at hand.

usage: fake_tool.py TOOL [--workers N] [--scratch] [--places] [--changes] [--why] [--update-cost] [--follow FILE] [--flaw NAME]

TOOL is bsp_tool, heat, collectives or bsp_kernel. All is as with the program of that name, but that it is slow, that no line says
where a document's fault is, or where a line is no TOML, and that the words are not checked. With a flaw it is wrong in one way (FLAWS), so that
it can be shown that its client notices.
"""
from __future__ import annotations

import contextlib
import errno
import json
import os
import re
import signal
import sys
import threading
import time

ROOT = os.path.dirname(os.path.dirname(os.path.dirname(os.path.realpath(__file__))))
sys.path.insert(0, f"{ROOT}/ci")
sys.dont_write_bytecode = True

from cases import runs_of  # noqa: E402
from model import Options, Reply, answer  # noqa: E402
from modelled.documents import TOOLS, Refused, job_of, tree_of  # noqa: E402
from modelled.limits import MOST_DOCUMENT_BYTES, MOST_WORKERS  # noqa: E402
from modelled.lines import HELP, bytes_reason, form_reason, refusal_reason, value_reason  # noqa: E402
from modelled.runs import Input, Run, run  # noqa: E402
from modelled.sessions import Edit  # noqa: E402
from modelled.shown import WORDS, shown  # noqa: E402
from modelled.texts import line, text_of  # noqa: E402
from starting import AT_ONCE, threads_of  # noqa: E402

FLAWS = {
    "dies": "it is killed in the middle of block 2",
    "exits": "it ends with a fault in the middle of block 2",
    "hangs": "it takes a line and does not answer it",
    "deaf": "it hangs, and does not end when it is told to",
    "garbles": "block 2 has a line that none may have",
    "late": "a block is written when the next line has come",
    "numbers": "`document` and `help` count as a block",
    "mute": "it does not say on standard error why a line was not read as a batch",
    "blames": "it says why a line was not read as a batch, whatever the line is",
    "undoes_refused": "`undo` takes back nothing where the last batch was refused",
    "undoes_once": "a second `undo` takes the first back",
    "unread_edits": "a line with a negative number sets the limit to 1",
    "forgets": "`document` has the first limit",
    "looks_back": "`view` and `turn` are those before the last batch",
    "older": "it knows no `view` and no `turn`",
    "ends_badly": "at the end of input the status is 1",
    "stays": "it does not end at the end of its input",
    "unheard": "it ends well though nobody reads its answers any more",
    "alone": "it starts no worker",
}


def work(words: list[str], runs: list[list[str]]) -> None:
    """Starts the threads that a tool starts for runs, of which these are the blocks, where its workers are to start at once."""
    if os.environ.get(AT_ONCE) != "1" or "--workers" not in words or "alone" in words:
        return
    for _ in range(threads_of(runs, int(words[words.index("--workers") + 1]))[1]):
        started = threading.Thread(target=int)
        with contextlib.suppress(RuntimeError):  # where none can start
            started.start()
            started.join()


class Live:
    """A session that is kept as the inputs that were left by the batches that stand."""

    def __init__(self, tool: str, document: bytes, words: list[str]):
        self.tool, self.tree, self.words = tool, tree_of(document), words
        job = job_of(TOOLS[tool], document)
        self.program, self.batches = job.program, job.batches
        self.inputs: list[Input] = [job.input]
        self.made: Run | None = None
        self.number = 0
        self.options = Options.of(words)
        self.flaw = words[words.index("--flaw") + 1] if "--flaw" in words else ""
        self.was_refused = False
        self.why = ""  # what is said of the last line on standard error

    def block(self, lines: list[str]) -> list[str]:
        self.number += 1
        return [line("run", self.number - 1), *lines]

    def run_again(self) -> list[str]:
        """The block of the input as it is now."""
        old, self.made = self.made, run(self.program, self.inputs[-1])
        work(self.words, [[line("memory")] * len(self.inputs[-1].memories)])
        return self.block(Reply(self.program, old, self.made).lines(self.options))

    def batch(self, batch: list[Edit]) -> list[str]:
        given = self.inputs[-1]
        refusals = [(edit.fault(given), place) for place, edit in enumerate(batch) if edit.fault(given)]
        self.was_refused = bool(refusals)
        if refusals:
            return self.block([line("refused", refusals[0][0], "at", refusals[0][1])])
        for edit in batch:
            given = edit.make(given)
        self.inputs.append(given)
        return self.run_again()

    def undo(self) -> list[str]:
        if self.flaw == "undoes_refused" and self.was_refused:
            self.was_refused = False
            return self.run_again()
        if len(self.inputs) == 1:
            return self.block(["unread undo"])
        taken = self.inputs.pop()
        if self.flaw == "undoes_once":
            self.inputs[:] = [taken, self.inputs[-1]]
        return self.run_again()

    def document(self) -> list[str]:
        given = self.inputs[-1]
        own = {"program", "kernel", "constants", "budget"} & self.tree.keys()
        limit = self.inputs[0].limit if self.flaw == "forgets" else given.limit
        values = {
            "limit": limit,
            "g": given.g,
            "l": given.l,
            "memory": given.memories,
            "args": given.args,
            **{key: self.tree[key] for key in sorted(own)},
        }
        self.number += self.flaw == "numbers"
        return ["document", *(f"{name} = {json.dumps(value)}" for name, value in values.items()), "end"]

    def help(self) -> list[str]:
        self.number += self.flaw == "numbers"
        return HELP

    def shown(self, word: str, behind: list[str]) -> list[str]:
        """The view or the turn of the place that stands behind the word."""
        numbers = [int(each) for each in behind if re.fullmatch("[0-9]+", each) and int(each) < 2**64]
        is_place = len(numbers) == len(behind) == 2
        if self.flaw == "looks_back" and len(self.inputs) > 1:
            return shown(run(self.program, self.inputs[-2]), word, tuple(numbers) if is_place else None)
        return shown(self.made, word, tuple(numbers) if is_place else None)

    def answer(self, text: bytes) -> list[str]:
        """The answer to a line."""
        text = text.removesuffix(b"\n")
        self.why = "edit 0: not an edit" if self.flaw == "blames" else ""
        if len(text) > MOST_DOCUMENT_BYTES:
            return self.block(["unread long"])
        word = text.partition(b"#")[0].strip(b" \t\r").decode(errors="replace")
        first, *behind = re.split("[ \t\r]+", word)
        if word in ("undo", "document", "help"):
            return getattr(self, word)()
        if first in WORDS and self.flaw != "older":
            return self.shown(first, behind)
        try:
            batch = batch_of(text if word else b"[] " + text)
        except Unread as unread:
            fault, self.why = unread.args
            if self.flaw == "unread_edits" and fault == "J7":
                self.batch([Edit("limit", [1])])
                self.number -= 1
            return self.block([line("unread", fault)])
        self.why = self.why or refusal_reason(self.inputs[-1], batch)
        return self.batch(batch)


class Unread(Exception):
    """A line that is no batch: the fault, and the reason."""


def batch_of(text: bytes) -> list[Edit]:
    """The batch that a line is."""
    try:
        batch = tree_of(b"batch = " + text + b"\n")["batch"]
    except Refused as fault:
        raise Unread(str(fault), bytes_reason(text) or "line 1, column 1: no TOML value") from fault
    if not isinstance(batch, list) or any(map(form_reason, batch)):
        raise Unread("J3", value_reason(batch))
    if value_reason(batch):
        raise Unread("J7", value_reason(batch))
    return [Edit(part, numbers) for part, *numbers in batch]


def say(lines: list[str]) -> None:
    sys.stdout.write(text_of(lines))
    sys.stdout.flush()


def misbehave(flaw: str, number: int, lines: list[str]) -> list[str]:
    """What is said in the place of a block. With some flaws this does not end."""
    if flaw in ("hangs", "deaf"):
        signal.signal(signal.SIGTERM, signal.SIG_IGN if flaw == "deaf" else signal.SIG_DFL)
        say(lines[:1])
        time.sleep(60)
    if number != 2:
        return lines
    if flaw == "dies":
        say(lines[: len(lines) // 2])
        os.kill(os.getpid(), signal.SIGKILL)
    if flaw == "exits":
        say(lines[: len(lines) // 2])
        sys.stderr.write("fault memory\n")
        sys.stderr.flush()
        os._exit(1)
    return [lines[0], "status unheard", *lines[2:]] if flaw == "garbles" else lines


def follow(tool: str, path: str, words: list[str]) -> int:
    try:
        with open(path, "rb") as file:
            live = Live(tool, file.read(), words)
    except FileNotFoundError:
        return ended(f"fault read\n{path}: {os.strerror(errno.ENOENT)} (os error {errno.ENOENT})", 1)
    except OSError:
        return ended(f"fault read\n{path}: it can't be read", 1)
    except Refused as fault:
        return ended(f"fault {fault}", 3)
    say(live.run_again())
    for batch in live.batches:
        say(live.batch(batch))
    say(["ready"])
    late: list[str] = []
    for text in sys.stdin.buffer:
        lines = misbehave(live.flaw, live.number, live.answer(text))
        if live.flaw == "late":
            late, lines = lines, late
        say(lines)
        if live.why and live.flaw != "mute":
            print(live.why, file=sys.stderr, flush=True)
    say(late)
    if live.flaw == "stays":
        time.sleep(60)
    return int(live.flaw == "ends_badly")


def ended(error: str, status: int) -> int:
    sys.stderr.write(f"{error}\n")
    return status


def wrong_workers(words: list[str]) -> str | None:
    """The number of workers in the words of the command line, if there is one that a tool refuses."""
    number = words[words.index("--workers") + 1] if "--workers" in words else "1"
    return None if 1 <= int(number) <= MOST_WORKERS else number


def main(words: list[str]) -> int:
    tool, *words = words
    wrong = wrong_workers(words)
    if wrong is not None:
        return ended(f"error: invalid value '{wrong}' for '--workers <N>': {wrong} is not in 1..={MOST_WORKERS}", 2)
    if "--follow" in words:
        _, *path = words[words.index("--follow") :]
        if not path or "--scratch" in words:
            return ended("error: the option --follow wants FILE, and no --scratch beside it", 2)
        return follow(tool, path[0], words)
    for word in ("--why", "--update-cost"):
        if word in words and "--scratch" in words:
            return ended(f"error: the argument '{word}' cannot be used with '--scratch'", 2)
    given = answer(tool, sys.stdin.buffer.read(), **vars(Options.of(words)))
    work(words, runs_of(given.report.encode()))
    sys.stdout.write(given.report)
    sys.stderr.write(given.error)
    return given.status


if __name__ == "__main__":
    signal.signal(signal.SIGINT, signal.SIG_IGN)
    try:
        sys.exit(main(sys.argv[1:]))
    except BrokenPipeError:
        os.dup2(os.open(os.devnull, os.O_WRONLY), 1)
        sys.exit(0 if "unheard" in sys.argv else ended("fault write", 1))
