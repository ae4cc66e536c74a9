"""Random lines for a live session, each with what it asks, as it is known from how the line was made."""
import json
from dataclasses import dataclass

from drawn import draw_batch
from modelled.limits import MOST_DOCUMENT_BYTES, MOST_PROCESSES, MOST_SUPERSTEPS
from modelled.shown import WORDS

# Lines that are no batch, and why.
UNREAD = (
    (b"foo", "J1"),
    (b"Undo", "J1"),
    (b"undo 2", "J1"),
    (b"undo undo", "J1"),
    (b"help me", "J1"),
    (b"Help", "J1"),
    (b"documents", "J1"),
    (b"views 0 0", "J1"),
    (b"View 0 0", "J1"),
    (b"turn0 0", "J1"),
    (b"\xff", "J1"),
    (b"\x00", "J1"),
    (b'"""', "J1"),
    (b"[] x", "J1"),
    (b"= []", "J1"),
    (b"[[", "J1"),
    (b'[["limit", 3]] = 4', "J1"),
    (b'[["limit", 3]], [["limit", 4]]', "J1"),
    (b'[["limit", 9223372036854775808]]', "J1"),
    (b'[["limit", 03]]', "J1"),
    (b"7", "J3"),
    (b"{}", "J3"),
    (b'"undo"', "J3"),
    (b"[1]", "J3"),
    (b"[[]]", "J3"),
    (b'["limit", 5]', "J3"),
    (b'[["limit", 5.0]]', "J3"),
    (b'[["limit"]]', "J3"),
    (b'[["limit", 5, 6]]', "J3"),
    (b'[["colour", 1]]', "J3"),
    (b'[["word", 0, 0]]', "J3"),
    (b'[["arg", 0, 0, 0, 0]]', "J3"),
    (b'[["a\\u0007b", 0]]', "J3"),
    (b'[["limit", 1], 7]', "J3"),
    (b'[["limit", 1], ["prices", 1, true]]', "J3"),
    (b'[["prices", -1, 1], ["limit"]]', "J3"),
    (b'[["word", 0, 0, -1]]', "J7"),
    (b'[["limit", -5]]', "J7"),
    (b'[["limit", 1], ["prices", 1, -1]]', "J7"),
)
BLANK = (b"", b" ", b" \t ", b"# why", b'  # [["limit", 1]]', b"#undo")
# What may stand behind `view` or `turn` and is no place.
NO_PLACES = ("", " 0", " 0 0 0", " 0 x", " x 0", " -1 0", " +0 0", " 0 -1", " 0.0 0", ' "0" 0', " [0, 0]", " 0, 0", " 0 # 0", "#0 0", " 0\u00a00", " 0x0 0")
TOO_LARGE = (f" {2**64} 0", f" 0 {2**64}", f" 0 {2**64 - 1}", f" {2**64 - 1} 0", f" {10**30} 0")


@dataclass(frozen=True)
class Ask:
    """A line without its end, and what it asks: a batch of edits, that the last one be taken back, that the input, the
    lines that there are, or the view or the turn of a place be written, or nothing that is read."""

    line: bytes
    batch: list | None = None
    unread: str = ""
    word: str = ""
    place: tuple | None = None

    @property
    def is_undo(self):
        return self.word == "undo"

    @property
    def is_document(self):
        return self.word == "document"

    @property
    def is_help(self):
        return self.word == "help"

    @property
    def is_shown(self):
        return self.word in WORDS


def word_text(draw, text):
    """A text around which spaces may stand, and a comment behind it."""
    before = draw.choice(("", "", "", " ", "\t", " \t "))
    after = draw.choice(("", "", "", " ", "\t", "# why", " #undo", " \t# document"))
    return f"{before}{text}{after}".encode()


def word_ask(draw, word):
    """A line with this word."""
    return Ask(word_text(draw, word), word=word)


def shown_ask(draw, count):
    """A line that asks for the view or the turn of a place, which is there mostly, where there are so many processes."""
    word = draw.choice(WORDS)
    if draw.happens(0.2):
        return Ask(f"{word}{draw.choice(NO_PLACES + TOO_LARGE)}".encode(), word=word)
    step = draw.choice((5, MOST_PROCESSES, MOST_SUPERSTEPS - 1, 2**63, 2**64 - 1)) if draw.happens(0.05) else draw.randrange(5)
    place = step, count if draw.happens(0.05) else draw.randrange(count)
    gaps = [draw.choice((" ", " ", "  ", "\t", " 0", " \t 00")) for _ in place]
    return Ask(word_text(draw, word + "".join(f"{gap}{number}" for gap, number in zip(gaps, place))), word=word, place=place)


def number_text(draw, number):
    """A number in one of the forms of TOML."""
    return draw.choice((str, str, str, hex, lambda n: f"+{n}", lambda n: f"{n:_}"))(number)


def batch_text(draw, batch):
    """A batch in one of the forms in which a line can have it."""
    if draw.happens(0.5):
        return json.dumps(batch)
    gap, last, quote = draw.choice(("", " ", "\t")), draw.choice(("", ",", " , ")), draw.choice("\"'")
    rows = [[f"{quote}{name}{quote}", *(number_text(draw, number) for number in numbers)] for name, *numbers in batch]
    texts = [f"[{gap}{f',{gap}'.join(row)}{last}]" for row in rows]
    inner = f",{gap}".join(texts)
    return f"{gap}[{inner}{last if texts else ''}]{gap}{draw.choice(('', '# why', '#'))}"


def draw_ask(draw, memories, args, rates):
    """A line: mostly a batch. `rates` gives how often it is an `undo`, a `document`, a `help`, and a `view` or a `turn`."""
    if draw.happens(rates.get("shown", 0)):
        return shown_ask(draw, len(memories))
    kind = draw.random()
    if kind < rates["undo"]:
        return word_ask(draw, "undo")
    if kind < rates["undo"] + rates["document"]:
        return word_ask(draw, "document")
    if kind < rates["undo"] + rates["document"] + rates.get("help", 0):
        return word_ask(draw, "help")
    if kind > 0.9:
        line, why = draw.choice(UNREAD)
        return Ask(line, unread=why)
    if kind > 0.85:
        return Ask(draw.choice(BLANK), [])
    batch = draw_batch(draw, memories, args)
    return Ask(batch_text(draw, batch).encode(), batch)


def long_lines():
    """Lines that are as long as a line may be, and longer ones."""
    longest = b"[] #".ljust(MOST_DOCUMENT_BYTES, b"x")
    longer = b"document #".ljust(MOST_DOCUMENT_BYTES + 1, b"x")
    return [Ask(longest, []), Ask(longest + b"x", unread="long"), Ask(longer, unread="long")]
