"""Runs of a program on documents, and what must come of them."""
import os
import resource
import subprocess
import unicodedata
import zlib
from dataclasses import dataclass, replace

from modelled.limits import MOST_WORKERS

ROOT = os.path.dirname(os.path.dirname(os.path.realpath(__file__)))
EXAMPLES_OF = "bsp_tool"
SECONDS = 120
WORKERS = ("1", str(MOST_WORKERS))
# Those that start at once, of a session and of runs from scratch; or the other way round.
AT_ONCE = (("2", str(MOST_WORKERS)), ("3", "4"))
# The lists of options with which a document is run besides, where the model says the report.
OPTIONS = (
    ("--places",),
    ("--places", "--changes"),
    ("--scratch", "--changes"),
    ("--why", "--update-cost"),
    ("--why", "--changes"),
    ("--update-cost", "--changes"),
)


@dataclass
class Case:
    """A run of a program: the file on standard input, and what must come of it."""

    name: str
    document: str
    report: bytes
    status: int = 0
    error: bytes = b""
    words: tuple = ()  # of the command line
    output: str = ""  # where standard output goes, if it is not to be compared
    memory: int = 0  # the most bytes of address space, if not 0
    workers: int = 0  # how many start at once, if not 0


def bytes_of(path):
    with open(path, "rb") as file:
        return file.read()


def examples(crate):
    """The documents of examples/ for the program of a crate, with their reports: one with the name of a crate is for that one's, and each other is for
    that of bsp_tool."""
    folder = f"{ROOT}/examples"
    names = sorted(name[: -len(".toml")] for name in os.listdir(folder) if name.endswith(".toml"))
    names = [name for name in names if crate == (name if os.path.isdir(f"{ROOT}/crates/{name}") else EXAMPLES_OF)]
    return [Case(f"examples/{name}", f"{folder}/{name}.toml", bytes_of(f"{folder}/{name}.txt")) for name in names]


def stored_run(crate):
    """The document with which a crate's program is run where it is proved, with its report; none where the crate has none."""
    folder = f"{ROOT}/crates/{crate}"
    if not os.path.isfile(f"{folder}/stdin"):
        return []
    return [Case(f"{crate}: its stored run", f"{folder}/stdin", bytes_of(f"{folder}/stdout"))]


def without_updates(report):
    """The report of the same document from scratch."""
    return b"".join(line for line in report.splitlines(True) if not line.startswith(b"executed "))


def built_program(crate, *of_tests):
    """The path of the program of a crate, or with "tests" of its tests, which is built where it is absent or older than its sources. None where it can't
    be built."""
    built = subprocess.run([f"{ROOT}/ci/program", crate, *of_tests], stdout=subprocess.PIPE, text=True)
    return None if built.returncode else built.stdout.strip()


def given_words(case, report, *words):
    return replace(case, name=" ".join([case.name, *words]), report=report, words=words)


def started_at_once(case):
    """The case by 2, 3, 4 and the most workers that start at once, two of these numbers from scratch."""
    of_session, of_scratch = AT_ONCE[:: 1 if zlib.crc32(case.name.encode()) % 2 else -1]
    words = [["--workers", count] for count in of_session] + [["--workers", count, "--scratch"] for count in of_scratch]
    given = [given_words(case, without_updates(case.report) if "--scratch" in each else case.report, *each) for each in words]
    return [replace(each, name=f"{each.name}, started at once", workers=int(each.words[1])) for each in given]


def with_words(case, reports):
    """A case that has no words of its own, with each number of workers and with --scratch too, and with each list of options of which the report is
    known."""
    if isinstance(case, str) or case.words:
        return [case]
    cases = [case, *(given_words(case, case.report, "--workers", count) for count in WORKERS), *started_at_once(case)]
    cases.append(given_words(case, without_updates(case.report), "--scratch"))
    return cases + [given_words(case, report, *words) for words, report in reports.items()]


def run(program, case, environment=None):
    limit = (lambda: resource.setrlimit(resource.RLIMIT_AS, (case.memory, case.memory))) if case.memory else None
    with open(case.output or os.devnull, "wb") as sink:
        given = os.open(case.document, os.O_RDONLY)
        try:
            return subprocess.run(
                [program, *case.words],
                stdin=given,
                stdout=sink if case.output else subprocess.PIPE,
                stderr=subprocess.PIPE,
                timeout=SECONDS,
                preexec_fn=limit,
                env=environment,
            )
        finally:
            os.close(given)


def difference(what, found, wanted):
    """The first line in which two texts differ."""
    if found == wanted:
        return []
    rows, others = found.splitlines(True), wanted.splitlines(True)
    at = next((n for n, (row, other) in enumerate(zip(rows, others)) if row != other), min(len(rows), len(others)))
    row, other = (lines[at][:80] if at < len(lines) else None for lines in (rows, others))
    return [f"{what}, line {at + 1}: {row!r} in place of {other!r}"]


def runs_of(report):
    """The lines of each block of a report that has a status."""
    blocks = [block.decode().splitlines() for block in (b"\n" + report).split(b"\nrun ")[1:]]
    return [block for block in blocks if any(line.startswith("status ") for line in block)]


def first_line(text):
    return b"".join(text.splitlines(True)[:1])


def wrong_explanation(error):
    """What is wrong with what stands below a document's fault line: it is one line, without a control character."""
    try:
        line = error.removeprefix(first_line(error)).decode()
    except UnicodeDecodeError:
        return ["standard error, line 2: not UTF-8"]
    if len(line) > 1 and line[-1] == "\n" and not any(unicodedata.category(c) == "Cc" for c in line[:-1]):
        return []
    return [f"standard error, line 2: {line[:80]!r} is no line"]


def error_differences(error, wanted):
    """What differs on standard error. Where of a document's fault the first line alone is known, another one stands below it."""
    if not wanted.startswith(b"fault J"):
        return difference("standard error", error, wanted)
    found = wrong_explanation(error)
    if wanted == first_line(wanted):
        error = first_line(error)
    return found + difference("standard error", error, wanted)


def unlike(case, report, error, status):
    """What of a program's answer is not what must come of the case's document."""
    found = difference("standard output", report, case.report) + error_differences(error, case.error)
    if status != case.status:
        found.append(f"status {status} in place of {case.status}")
    return [f"{case.name}: {it}" for it in found]


def differences(program, case, starting=None):
    """What differs where the case is run. Of workers that start at once `starting` counts the threads."""
    if isinstance(case, str):
        return [case]
    started = starting.run() if case.workers else None
    try:
        ended = run(program, case, started and started.environment())
    except subprocess.TimeoutExpired:
        return [f"{case.name}: no end after {SECONDS} seconds"]
    found = unlike(case, ended.stdout or b"", ended.stderr, ended.returncode)
    return found + [f"{case.name}: {it}" for it in (started.differences(runs_of(case.report), case.workers) if started else [])]
