"""The reports that the repository has, and tools that answer by its plain model."""

from __future__ import annotations

import glob
import os
import sys

HERE = os.path.dirname(os.path.realpath(__file__))
ROOT = os.path.dirname(os.path.dirname(HERE))
sys.path[:0] = [f"{ROOT}/ci", f"{ROOT}/python"]
FAKE = f"{HERE}/fake_tool.py"


def text_of(path: str) -> str:
    with open(path, encoding="utf-8", newline="") as file:
        return file.read()


def stored() -> list[tuple[str, str, str]]:
    """Each report that is stored beside its document: its path, its text, and its document."""
    pairs = [
        (path, f"{path[: -len('txt')]}toml")
        for path in glob.glob(f"{ROOT}/cases/*/*.txt") + glob.glob(f"{ROOT}/examples/*.txt")
    ]
    pairs += [(path, f"{path[: -len('stdout')]}stdin") for path in glob.glob(f"{ROOT}/crates/*/stdout")]
    texts = [(path, text_of(path), document) for path, document in sorted(pairs)]
    return [(path, text, text_of(document)) for path, text, document in texts if text.startswith("run 0\n")]


def fake(tool: str, *flaw: str) -> list[str]:
    """The command of a tool that answers by the model, with a flaw or none."""
    return [sys.executable, "-B", FAKE, tool, *(["--flaw", *flaw] if flaw else [])]


HEAT = (
    b'program = "heat"\nlimit = 9\ng = 1\nl = 2\nmemory = [[0, 8, 0], [0, 4, 0], [0, 0, 9]]\nargs = [[2], [2], [2]]\n'
)
