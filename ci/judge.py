"""What a live session has to answer to lines, by the plain model of ci/model.py."""
import json
import re
from dataclasses import replace
from itertools import groupby

from cases import difference
from model import TOOLS, replies_to, report_of
from modelled.documents import Job, Refused, job_of, tree_of
from modelled.lines import HELP, bytes_reason, refusal_reason, value_reason
from modelled.runs import Input, run
from modelled.sessions import Edit
from modelled.shown import shown
from modelled.texts import line, text_of

UPDATE = ("turns", "deliveries", "why", "update", "executed")  # the lines of an update


def blocks_of(report):
    """The lines of each block, but for the line `run K`."""
    blocks = []
    for each in report.splitlines():
        if each.startswith("run "):
            blocks.append([])
        else:
            blocks[-1].append(each)
    return blocks


def undoing(given, edits):
    """The edits after which an input is as it was before these edits."""
    former = {
        "word": lambda pid, at, _: [pid, at, given.memories[pid][at]],
        "arg": lambda pid, at, _: [pid, at, given.args[pid][at]],
        "limit": lambda _: [given.limit],
        "prices": lambda *_: [given.g, given.l],
    }
    return [Edit(edit.part, former[edit.part](*edit.numbers)) for edit in edits]


def first_words(each):
    """What a line is about: a process's memory or lines, a cost row, or the word with which it begins."""
    word, _, rest = each.partition(" ")
    return (word, int(rest.split(" ")[0])) if word in ("memory", "print", "cost") else (word, None)


def grouped(block):
    return {about: list(lines) for about, lines in groupby(block, first_words)}


def changes_of(before, block):
    """Of a whole block what stands in it with --changes, where this whole block came before."""
    old, new = grouped(before), grouped(block)
    counts = [sum(word == "cost" for word, _ in each) for each in (old, new)]
    processes = [number for word, number in new if word == "memory"]
    told = [each for about in new if about[0] in ("status", "fault") for each in new[about]]
    told += [each for pid in processes if new["memory", pid] != old["memory", pid] for each in new["memory", pid]]
    for pid in processes:
        if new.get(("print", pid)) != old.get(("print", pid)):
            told += new.get(("print", pid), [line("silent", pid)])
    told += [each for about in new if about[0] == "cost" and new[about] != old.get(about) for each in new[about]]
    told += [line("costs", counts[1])] if counts[0] != counts[1] else []
    return told + [each for about in new if about[0] in ("total", *UPDATE) for each in new[about]]


def unread_reason(text, why):
    """The pattern of what is said on standard error of a line that was not read as a batch. Of a text that is no TOML
    the place is known only to lie on the line, and a CR may stand behind it."""
    if why == "J1" and not bytes_reason(text):
        columns = "|".join(map(str, range(1, len(text.decode()) + 3)))
        return f"line 1, column ({columns}): [^\n]+"
    return re.escape(bytes_reason(text) or value_reason(tree_of(b"batch = " + text)["batch"]))


class Judge:
    """The session of a document after some lines: its input, and for each accepted batch that stands the edits that
    take it back; and the patterns of the lines that were to be said on standard error."""

    def __init__(self, tool, document, options):
        self.catalogue = TOOLS[tool]
        job = job_of(self.catalogue, document)
        self.program, self.input, self.batches = job.program, job.input, job.batches
        self.at_key = tree_of(document)[self.catalogue.key]
        self.whole, self.changes = replace(options, changes=False), options.changes
        self.number = 0
        self.undos = []
        self.errors = []
        self.last = []  # the last block with a status, whole
        self.runs = []  # all of them

    def text(self, lines):
        self.number += 1
        return text_of([line("run", self.number - 1), *lines])

    def blocks(self, batches):
        """The whole blocks of the input as it is, and of batches on it."""
        return blocks_of(report_of(replies_to(Job(self.program, self.input, batches)), self.whole))

    def replied(self, edits):
        """The block of the model for edits of the input as it is, and whether they were accepted."""
        block = self.blocks([edits])[1]
        is_accepted = block[0].startswith("status ")
        before = self.last
        if is_accepted:
            self.last = block
            self.runs.append(block)
            for edit in edits:
                self.input = edit.make(self.input)
        return self.text(changes_of(before, block) if is_accepted and self.changes else block), is_accepted

    def batch(self, edits):
        given = self.input
        text, is_accepted = self.replied(edits)
        if is_accepted:
            self.undos.append(undoing(given, edits))
        return text

    def opening(self):
        """What is written before a line is read."""
        self.last = self.blocks([])[0]
        self.runs.append(self.last)
        first = self.text(self.last)
        return first + "".join(self.batch(edits) for edits in self.batches) + "ready\n"

    def answer(self, ask):
        """The answer to a line, which does not ask for the document."""
        if ask.is_help:
            return text_of(HELP)
        if ask.is_shown:
            return text_of(shown(run(self.program, self.input), ask.word, ask.place))
        if ask.unread:
            self.errors += [unread_reason(ask.line, ask.unread)] if ask.unread != "long" else []
            return self.text([line("unread", ask.unread)])
        if ask.is_undo:
            return self.replied(self.undos.pop())[0] if self.undos else self.text(["unread undo"])
        edits = [Edit(part, numbers) for part, *numbers in ask.batch]
        reason = refusal_reason(self.input, edits)
        self.errors += [re.escape(reason)] if reason else []
        return self.batch(edits)

    def of_scratch(self):
        """The report of the input as it is, with --scratch."""
        return text_of(["run 0", *(each for each in self.last if not each.startswith(UPDATE))])

    def document_start(self):
        """The first lines of the document: the input. The keys of the catalogue's own come after them."""
        given = self.input
        values = {"limit": given.limit, "g": given.g, "l": given.l, "memory": given.memories, "args": given.args}
        return "".join(f"{name} = {json.dumps(value)}\n" for name, value in values.items())

    def document_differences(self, document):
        """What is wrong with the text that says what the input is."""
        start = self.document_start().encode()
        if not document.startswith(start):
            return difference("its first lines", document[: len(start)], start)
        try:
            tree, job = tree_of(document), job_of(self.catalogue, document)
        except Refused as fault:
            return [f"it is no job: {fault}"]
        wrong = ["it has the key batches"] if "batches" in tree else []
        wrong += [f"{self.catalogue.key} is another"] if tree[self.catalogue.key] != self.at_key else []
        return wrong + [
            f"{name} is another"
            for name in Input.__annotations__
            if getattr(job.input, name) != getattr(self.input, name)
        ]
