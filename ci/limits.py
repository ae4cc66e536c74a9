"""The limits of a build: the constants of limits.rt, the facts that are proved of them, and other numbers for them."""
from __future__ import annotations

import glob
import re
import subprocess
import tomllib
from collections.abc import Iterable
from dataclasses import dataclass

SOURCE = "crates/bsp_model/src/limits.rt"
LARGEST = 2**32 - 1
NUMBER = re.compile(r"^(pub const (\w+): u\w+ = )([0-9_]+);$", re.MULTILINE)
NAME = re.compile(r'^(pub const NAME: &str = ")([^"]*)(";)$', re.MULTILINE)
CONSTANT = re.compile(r"^(?:pub )?const (\w+): u\w+ =\s+([^;]+);$", re.MULTILINE)
FACT = re.compile(r"((?:^// .*\n)+)^const _: \(\) = prove!\(([^;]+)\);$", re.MULTILINE)
CHOICE = re.compile(r"if (.+) \{(.+)\} else \{(.+)\}", re.DOTALL)

Limits = dict[str, int]


@dataclass(frozen=True)
class Fact:
    """A condition on constants, and the sentence above it."""

    sentence: str
    condition: str


def _text_of(path: str) -> str:
    with open(path, encoding="utf-8") as file:
        return file.read()


def limits_in(text: str) -> Limits:
    """The limits of a source: its constants whose values are numerals."""
    return {name: int(digits) for _, name, digits in NUMBER.findall(text)}


def limits_of(root: str) -> Limits:
    return limits_in(_text_of(f"{root}/{SOURCE}"))


def named_limits_of(root: str) -> Limits:
    """The limits that a tool names with its version; none where they have no name."""
    text = _text_of(f"{root}/{SOURCE}")
    name = NAME.search(text)
    return limits_in(text) if name and name[2] else {}


def told_limits(program: str) -> Limits:
    """The limits that a built program names with its version."""
    said = subprocess.run([program, "--version"], stdin=subprocess.DEVNULL, stdout=subprocess.PIPE, text=True).stdout
    _, _, named = said.partition("\nlimits ")
    return tomllib.loads(named.partition("\n")[2])


def facts_of(root: str, crates: Iterable[str]) -> list[Fact]:
    """The facts that these crates prove of constants, those of limits.rt first."""
    first = f"{root}/{SOURCE}"
    sources = [path for crate in crates for path in sorted(glob.glob(f"{root}/crates/{crate}/src/**/*.rt", recursive=True))]
    found = [it for path in (first, *(path for path in sources if path != first)) for it in FACT.findall(_text_of(path))]
    return [Fact(" ".join(line[3:] for line in comment.splitlines()), condition) for comment, condition in found]


def _value_of(expression: str, values: Limits) -> int:
    """The value of an expression of Rattle: a sum, a product, a comparison, or a choice of one of two."""
    choice = CHOICE.fullmatch(expression)
    if choice:
        return _value_of(choice[2 if _value_of(choice[1], values) else 3].strip(), values)
    plain = re.sub(r"\bu(\d+)::MAX\b", r"(2**\1 - 1)", re.sub(r" as u\w+", "", expression))
    return eval(" ".join(plain.split()), {"__builtins__": {}}, values)


def _constants_in(text: str, limits: Limits) -> Limits:
    """The values of the constants of a source, with these limits."""
    values: Limits = {}
    for name, expression in CONSTANT.findall(text):
        values[name] = limits[name] if name in limits else _value_of(expression, values)
    return values


def constants_of(root: str) -> Limits:
    """The limits, and the constants that follow from them."""
    text = _text_of(f"{root}/{SOURCE}")
    return _constants_in(text, limits_in(text))


def _names_in(expression: str) -> set[str]:
    return set(re.findall(r"\b[A-Z][A-Z_]+\b", expression)) - {"MAX"}


def _broken(facts: list[Fact], text: str, limits: Limits) -> list[Fact]:
    """The facts that don't hold of these limits. One that names more than the constants of limits.rt is left to the prover."""
    values = _constants_in(text, limits)
    return [fact for fact in facts if _names_in(fact.condition) <= set(values) and not _value_of(fact.condition, values)]


def _numbers_below(fact: Fact, text: str) -> set[str]:
    """The limits on which a fact depends."""
    expressions, limits = dict(CONSTANT.findall(text)), limits_in(text)
    found = names = _names_in(fact.condition)
    while names:
        names = set().union(*(_names_in(expressions[name]) for name in names)) - found
        found = found | names
    return found & set(limits)


def _lowered(fact: Fact, text: str, limits: Limits, name: str) -> int:
    """The largest number in the place of this one with which the fact holds; 0 where there is none."""

    def holds(number: int) -> bool:
        return not _broken([fact], text, limits | {name: number})

    low, high = int(holds(1)), limits[name]
    while low and high - low > 1:
        middle = (low + high) // 2
        low, high = (middle, high) if holds(middle) else (low, middle)
    return low


def _complaint(fact: Fact, text: str, limits: Limits) -> str:
    """What is to be said of a fact that does not hold: its sentence, and the numbers of which a lower one is enough."""
    names = sorted(_numbers_below(fact, text))
    lowered = {name: _lowered(fact, text, limits, name) for name in names}
    enough = [f"{name} = {number:_}" for name, number in lowered.items() if number]
    return f"{fact.sentence} Lower a number: {' or '.join(enough)} is enough." if enough else f"{fact.sentence} Change {', '.join(names)}."


def _line_of(text: str, name: str) -> int:
    """The line of a document of TOML in which a key or a table of this name begins."""
    key = re.compile(rf"""\s*\[*\s*["']?{re.escape(name)}\b""")
    return next((number for number, line in enumerate(text.splitlines(), 1) if key.match(line)), 1)


def _parsed(path: str, data: bytes) -> tuple[str, dict[str, object]]:
    try:
        text = data.decode()
        return text, tomllib.loads(text)
    except UnicodeDecodeError as error:
        line = data.count(b"\n", 0, error.start) + 1
        raise ValueError(f"{path}, line {line}: this is not UTF-8") from error
    except tomllib.TOMLDecodeError as error:
        found = re.search(r" \(at line (\d+), column \d+\)$", str(error))
        line = int(found[1]) if found else max(1, len(text.splitlines()))
        raise ValueError(f"{path}, line {line}: this is no TOML: {str(error).partition(' (at ')[0]}") from error


def read_limits(path: str, root: str, crates: Iterable[str]) -> Limits:
    """The limits that a TOML file names, as `MOST_MEMORY_WORDS = 1_048_576`. A ValueError says in words why these crates can't be proved with them."""
    with open(path, "rb") as file:
        text, named = _parsed(path, file.read())
    source = _text_of(f"{root}/{SOURCE}")
    known = limits_in(source)
    wrong = []
    for name, number in named.items():
        at = f"{path}, line {_line_of(text, name)}"
        if name not in known:
            wrong.append(f"{at}: {name} is no limit; {SOURCE} names them")
        elif type(number) is not int or not 1 <= number <= LARGEST:
            wrong.append(f"{at}: {name} has to be a number from 1 to {LARGEST:_}")
    if not wrong:
        wrong = [f"{path}: {_complaint(fact, source, known | named)}" for fact in _broken(facts_of(root, crates), source, known | named)]
    if wrong:
        raise ValueError("\n".join(wrong))
    return known | named


def with_limits(text: str, limits: Limits, name: str) -> str:
    """The text of limits.rt with other numbers, and a name for them."""
    numbers = NUMBER.sub(lambda part: f"{part[1]}{limits[part[2]]:_};", text)
    return NAME.sub(lambda part: f"{part[1]}{name}{part[3]}", numbers)
