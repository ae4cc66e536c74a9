"""Lines of text."""
from __future__ import annotations


def line(*fields) -> str:
    return " ".join(str(each) for each in fields)


def text_of(lines: list[str]) -> str:
    return "".join(f"{each}\n" for each in lines)
