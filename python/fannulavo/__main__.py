"""usage: python3 -m fannulavo pictures REPORT OUT.svg
       python3 -m fannulavo kernel FILE.py [NAME]
       python3 -m fannulavo check FILE.py [NAME]

pictures: draws the last report of the file REPORT, or of standard input where that is `-`: its costs, what its update
cost where the tool had `--update-cost`, its reach where it had `--places`, with the causes where it had `--why`, and
the comparison with the report before. The picture is written to OUT.svg; with the ending .png or .pdf it is one of
these.

kernel: writes the kernel of FILE.py as a document for bsp_kernel. Of several kernels NAME is one. The document has the
input and the edits too where the file sets `example` and `edits`.

check: compares the function of a kernel with its instructions at drawn views, and whole runs of both, and of the tool
bsp_kernel where that is built.
"""

from __future__ import annotations

import sys
from pathlib import Path

from fannulavo.errors import Error, MalformedReport
from fannulavo.reading import read_report


def _failed(why: object) -> int:
    print(f"fannulavo: {why}", file=sys.stderr)
    return 1


def _pictures(words: list[str]) -> int:
    try:
        from fannulavo.pictures import page, save
    except ImportError as error:
        return _failed(f"pictures want matplotlib ({error})")
    report, out = words
    try:
        text = sys.stdin.read() if report == "-" else Path(report).read_text(encoding="utf-8")
        save(page(read_report(text)), out)
    except (OSError, MalformedReport, ValueError) as error:
        return _failed(error)
    return 0


def _kernel(command: str, words: list[str]) -> int:
    from fannulavo.kernels.files import KernelFile

    try:
        file = KernelFile.read(*words)
        lines = file.check() if command == "check" else file.document().splitlines()
        for line in lines:
            print(line, flush=True)
    except (OSError, SyntaxError, Error) as error:
        return _failed(error)
    return 0


def main(words: list[str]) -> int:
    """Does what the words of the command line ask for. The exit status: 0, 1 where that failed, or 2 where the words
    are wrong."""
    command, *rest = words or [""]
    if command == "pictures" and len(rest) == 2:
        return _pictures(rest)
    if command in ("kernel", "check") and len(rest) in (1, 2):
        return _kernel(command, rest)
    print(__doc__, end="", file=sys.stderr)
    return 2


if __name__ == "__main__":
    sys.exit(main(sys.argv[1:]))
