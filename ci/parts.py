"""The parts of the gate: the scripts of ci/ and `rt ci`, in the order in which ./check runs them."""
from dataclasses import dataclass


@dataclass(frozen=True)
class Part:
    """The words of a command, and how many tries it has to pass at least, and threads to start: one that tries fewer shows less than it is there for."""

    words: tuple
    least: int
    threads: int = 0


def live(count):
    """So many talks with each of six programs; of each also one with long lines, and the starts that fail."""
    return Part(("ci/live", str(count), "--changes"), 6 * (count + 2), 30 * count)


DOCUMENTS = Part(("ci/documents",), 15_000, 8_000)
FIRST = (Part(("ci/test_gate",), 129), Part(("ci/statement",), 2), Part(("ci/python",), 126))  # before anything is proved
PROOFS = Part(("rt", "ci"), 109)  # 29 crates and 80 must-fail edits
LAST = (
    DOCUMENTS,
    Part(("ci/random", "300"), 1_800, 10_000),
    live(40),
    Part(("ci/sessions",), 12),
    Part(("ci/progress",), 5),
    Part(("ci/threads",), 7),
    Part(("ci/tried",), 1),
    Part(("ci/small_limits",), 3),
    Part(("ci/count_allocations",), 8),
    Part(("ci/refuse_allocations",), 32_000, 2_000),
    Part(("ci/refuse_threads",), 400, 1_500),
)
LAST_QUICK = (DOCUMENTS, live(10))  # of ./check --quick
