"""The talks that a client has with live sessions."""
import contextlib
import errno
import os
import subprocess

from cases import difference
from client import FAILURES, SECONDS, Wrong, opened
from drawn import Draw, drawn_document
from judge import Judge
from model import Options, answer
from modelled.documents import TOOLS, job_of
from modelled.limits import MOST_WORKERS
from talks import Ask, draw_ask, long_lines, word_ask

LINES = 14  # of a talk
WORKERS = (1, 3, MOST_WORKERS)
# How many workers a talk has, and whether they start at once.
CREWS = ((1, False), (2, True), (3, True), (MOST_WORKERS, False), (4, True), (MOST_WORKERS, True))
CONFLICT = b"error: the argument '%s' cannot be used with '--scratch'\n"


def drawn_job(crate, draw):
    """A document of a job, of those that are drawn."""
    while True:
        document = drawn_document(crate, draw.randrange(1 << 40))
        if answer(crate, document, scratch=True).status == 0:
            return document


def drawn_asks(draw, crate, document, rates):
    given = job_of(TOOLS[crate], document).input
    lists = [[list(words) for words in each] for each in (given.memories, given.args)]
    asks = [draw_ask(draw, *lists, rates) for _ in range(LINES)]
    return [*asks[:-1], word_ask(draw, "document"), asks[-1]]


class Talk:
    """A client, the judge of what it hears, and what comes by chance."""

    def __init__(self, draw, client, judge, command, path):
        self.draw, self.client, self.judge, self.command, self.path = draw, client, judge, command, path

    def text(self, ask):
        return ask.line + self.draw.choice((b"\n", b"\n", b"\r\n"))

    def hear(self, ask, what):
        """Waits for the answer to a line, and judges it."""
        if ask.is_document:
            return self.judge_document(self.client.document(), what)
        return self.client.expect(f"{what}, {ask.line[:60]!r}", self.judge.answer(ask))

    def judge_document(self, document, what):
        found = self.judge.document_differences(document)
        with open(f"{self.path}.again", "w+b") as file:
            file.write(document)
            file.seek(0)
            ended = subprocess.run([*self.command, "--scratch"], stdin=file, capture_output=True, timeout=SECONDS)
        os.remove(file.name)
        found += difference("its report from scratch", ended.stdout, self.judge.of_scratch().encode())
        if found:
            raise Wrong(f"{what}, document: {found[0]}")

    def in_pieces(self, ask, what):
        """A line in several writes: nothing is answered before it is whole."""
        text = self.text(ask)
        cuts = sorted(self.draw.randrange(len(text)) for _ in range(self.draw.randint(1, 3)))
        for start, end in zip([0, *cuts], [*cuts, len(text) - 1]):
            self.client.say(text[start:end])
            self.client.expect_nothing(what)
        self.client.say(text[-1:])
        self.hear(ask, what)

    def at_once(self, asks, what):
        self.client.say(b"".join(map(self.text, asks)))
        for ask in asks:
            self.hear(ask, what)

    def last(self, ask):
        """The last line has no end, and is answered at the end of the input."""
        if not ask.line:
            return
        self.client.say(ask.line)
        self.client.expect_nothing("the last line")
        self.client.process.stdin.close()
        self.hear(ask, "the last line")

    def go(self, asks):
        self.client.expect("the first blocks", self.judge.opening())
        *asks, last = asks
        while asks:
            what = f"line {LINES - len(asks)}"
            if self.draw.happens(0.2):
                # Only the last of them may ask for the document, whose length is not known.
                count = next((at + 1 for at, ask in enumerate(asks[:4]) if ask.is_document), len(asks[:4]))
                self.at_once(asks[:count], what)
                asks = asks[count:]
            else:
                how = self.in_pieces if self.draw.happens(0.3) else lambda ask, what: self.at_once([ask], what)
                how(asks.pop(0), what)
        self.last(last) if self.draw.happens(0.5) else self.at_once([last], "the last line")
        self.client.end(self.judge.errors)


def words_of(seed, changes):
    """The options of a seed."""
    draw = Draw(f"words {seed}")
    words = ("--places", "--why", "--update-cost", *(["--changes"] if changes else []))
    return ["--workers", str(CREWS[seed % len(CREWS)][0]), *(word for word in words if draw.happens(0.5))]


def random_talk(crate, command, room, options, starting, seed):
    """What differs in the talk of a seed. Where its workers start at once their threads are counted."""
    draw = Draw(f"live {crate} {seed}")
    document = drawn_job(crate, draw)
    rates = {"undo": draw.choice((0.1, 0.3)), "document": 0.08, "help": 0.04, "shown": 0.2}
    words, path = words_of(seed, "--changes" in options), f"{room}/{crate} {seed}.toml"
    judge = Judge(crate, document, Options.of(words))
    workers, is_at_once = CREWS[seed % len(CREWS)]
    started = starting.run() if is_at_once else None
    try:
        with opened(command, path, document, *words, environment=started and started.environment()) as client:
            Talk(draw, client, judge, command, path).go(drawn_asks(draw, crate, document, rates))
    except FAILURES as wrong:
        return [f"{crate} seed {seed}, {' '.join(words)}: {wrong}"]
    return [f"{crate} seed {seed}, {' '.join(words)}: {it}" for it in (started.differences(judge.runs, workers) if started else [])]


def dying_talk(crate, command, room, seed):
    """A client that dies where it waits for nothing, or in the middle: then there is nobody who reads the next
    block."""
    draw = Draw(f"dying {crate} {seed}")
    document = drawn_job(crate, draw)
    judge = Judge(crate, document, Options())
    try:
        with opened(command, f"{room}/{crate} {seed} dying.toml", document, *words_of(seed, False)[:2]) as client:
            client.expect("the first blocks", judge.opening())
            client.process.stdout.close()
            is_idle = draw.happens(0.3)
            with contextlib.suppress(BrokenPipeError):
                client.process.stdin.write(b"" if is_idle else draw.choice((b"[]", b"[]\n", b"foo\n", b"[]\n" * 50)))
            client.process.stdin.close()
            client.ended_with(*((0, "") if is_idle else (1, "fault write\n")))
    except FAILURES as wrong:
        return [f"{crate} seed {seed}, a client that dies: {wrong}"]
    return []


def long_talk(crate, command, room):
    """What differs where lines are as long as they may be, and longer."""
    document = drawn_job(crate, Draw(f"long {crate}"))
    judge = Judge(crate, document, Options())
    try:
        with opened(command, f"{room}/{crate} long.toml", document) as client:
            client.expect("the first blocks", judge.opening())
            for ask in [*long_lines(), Ask(b"[]", [])]:
                client.say(ask.line + b"\n")
                client.expect(f"a line of {len(ask.line)} bytes", judge.answer(ask))
            client.end()
    except FAILURES as wrong:
        return [f"{crate}: {wrong}"]
    return []


def start_differences(command, words, status, error):
    """What differs where a session can't be opened: nothing is written then, and nothing of standard input is read.
    The text on standard error begins so."""
    try:
        ended = subprocess.run([*command, *words], input=b"[]\n", capture_output=True, timeout=SECONDS)
    except FAILURES as wrong:
        return [str(wrong)]
    if (ended.returncode, ended.stdout) == (status, b"") and ended.stderr.startswith(error or b"error"):
        return []
    return [f"status {ended.returncode}, {ended.stderr[:80]!r} on standard error, {ended.stdout[:80]!r}"]


def faulty_starts(crate, command, room):
    """What differs with files that are not there, or are no document, and with options that do not go together."""
    path = f"{room}/{crate} start.toml"
    document = drawn_job(crate, Draw(f"start {crate}"))
    absent = f"fault read\n{room}/nowhere: {os.strerror(errno.ENOENT)} (os error {errno.ENOENT})\n".encode()
    starts = {
        "no file": (document, ["--follow", f"{room}/nowhere"], 1, absent),
        "a folder": (document, ["--follow", room], 1, f"fault read\n{room}: it can't be read\n".encode()),
        "no document": (b"limit = 1\n", ["--follow", path], 3, b"fault J2\n"),
        "no TOML": (b"]", ["--follow", path], 3, b"fault J1\n"),
        "from scratch": (document, ["--follow", path, "--scratch"], 2, b""),
        "causes from scratch": (document, ["--why", "--scratch"], 2, CONFLICT % b"--why"),
        "costs from scratch": (document, ["--update-cost", "--scratch"], 2, CONFLICT % b"--update-cost"),
        "no name": (document, ["--follow"], 2, b""),
    }
    found = []
    for name, (text, *start) in starts.items():
        with open(path, "wb") as file:
            file.write(text)
        found += [f"{crate}, {name}: {it}" for it in start_differences(command, *start)]
    os.remove(path)
    return found
