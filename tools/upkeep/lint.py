#!/usr/bin/env python3
"""Looks whether the sources keep to three rules of the house.

    tools/upkeep/lint.py

1. No line of a .rt, .antt, .md or .py file has more than 120 characters. In .md files tables, that is lines that begin
   with `|`, and lines with a link may be longer.
2. Nothing in crates/ is dead: from the sources, the answers and the invariants each definition, lemma and function is
   reached by names and imports. tools/upkeep/dead_code.py says how.
3. stack_checker, and each crate below it by crates.txt, names no crate that stands under `# Search` there, neither in
   crates.txt nor in a line of its sources that isn't a comment.

The script prints a line for each rule. Or a line for each place that breaks one, and then the status is 1. Python 3.11
or later.
"""
import re
import sys
from collections.abc import Iterator, Mapping
from pathlib import Path

TOP = Path(__file__).resolve().parents[2]
sys.path.insert(0, str(TOP / "tools"))

from masonry.console import Refused, Words, ran
from masonry.model import text_of
from upkeep.dead_code import CODE, dead_names

LONGEST = 120
CHECKER, SEARCH = "stack_checker", "Search"

# Files


def files(top: Path, *ends: str) -> Iterator[Path]:
    """The files of a clone with these ends, without what is built."""
    for path in sorted(top.rglob("*")):
        parts = path.relative_to(top).parts
        if path.suffix in ends and path.is_file() and "out" not in parts and not parts[0].startswith("."):
            yield path


def is_long(line: str, end: str) -> bool:
    return len(line) > LONGEST and not (end == ".md" and (line.startswith("|") or "](" in line or "://" in line))


def long_lines(top: Path) -> list[str]:
    """Where a line is too long."""
    return [f"{path.relative_to(top)}:{number}: more than {LONGEST} characters"
            for path in files(top, ".rt", ".antt", ".md", ".py")
            for number, line in enumerate(text_of(path).splitlines(), 1) if is_long(line, path.suffix)]


# Crates


def crates_of(text: str) -> dict[str, dict[str, list[str]]]:
    """The crates of crates.txt under each heading, each with those that it names. A heading is the first line of a
    paragraph."""
    found: dict[str, dict[str, list[str]]] = {}
    for paragraph in re.split(r"\n\s*\n", text):
        heading, *lines = paragraph.strip().splitlines() or [""]
        pairs = [line.split(":") for line in lines if line and not line.startswith("#")]
        found.setdefault(heading.lstrip("# "), {}).update({name: rest.split() for name, rest in pairs})
    return found


def below(crates: Mapping[str, list[str]], name: str) -> set[str]:
    """A crate and all below it that are in crates.txt."""
    found, left = set[str](), [name]
    while left:
        if (one := left.pop()) in crates and one not in found:
            found.add(one)
            left += crates[one]
    return found


def named(top: Path, crate: str, others: set[str]) -> Iterator[str]:
    """Where the sources of a crate name one of some others, outside comments."""
    word = re.compile(rf"\b({'|'.join(sorted(others))})\b")
    for path in files(top / "crates" / crate, ".rt", ".antt"):
        for number, line in enumerate(text_of(path).splitlines(), 1):
            if found := word.search(CODE.sub("", line)):
                yield f"{path.relative_to(top)}:{number}: {found[1]}, a crate of the search, is above {CHECKER}"


def searches(top: Path) -> tuple[int, list[str]]:
    """How many crates the checker rests on, itself among them, and where they name a crate of the search."""
    headed = crates_of(text_of(top / "crates.txt"))
    crates = {name: rest for of in headed.values() for name, rest in of.items()}
    search = set(headed.get(SEARCH, {}))
    if not search or CHECKER not in crates:
        raise Refused(f"crates.txt has no {CHECKER}, or no crates under `# {SEARCH}`")
    low = below(crates, CHECKER)
    wrong = [f"crates.txt: {name} names {other}, a crate of the search" for name in sorted(low)
             for other in crates[name] if other in search]
    return len(low), wrong + [line for name in sorted(low) for line in named(top, name, search)]


# The script


def looked(top: Path) -> tuple[list[str], list[str]]:
    """What is said of a clone that keeps to the rules, and where it doesn't."""
    count, wrong = searches(top)
    wrong = [*long_lines(top), *(f"{name}: nothing reaches {' '.join(of)}" for name, of in dead_names(top).items()),
             *wrong]
    return [f"no line has more than {LONGEST} characters", "each name is reached",
            f"{CHECKER} rests on {count - 1} crates, and none is of the search"], wrong


def lint(words: list[str]) -> int:
    if words:
        raise Words("there are no words")
    lines, wrong = looked(TOP)
    for line in wrong:
        print(line, file=sys.stderr)
    if not wrong:
        print(*lines, sep="\n")
    return 1 if wrong else 0


def main(words: list[str]) -> int:
    return ran(lambda _: lint(words), "lint", __doc__, words or [""])


if __name__ == "__main__":
    sys.exit(main(sys.argv[1:]))
