#!/usr/bin/env python3
"""Prints the definitions on which a definition rests, its own last, so that they can be read in order.

    tools/upkeep/definitions.py CRATE NAME

CRATE and NAME are those of a definition in specs/. For instance, `stack_said HoldTrueCertificate` says what `accepted`
means. Each page comes before those that cite it. Of a page those definitions are printed that are needed, with the
comments above them. The last lines say how many there are, and what else they cite: types of the sources, lemma files,
and Rattle's library. That these are all is read off the text, by names, and isn't proved.
"""
import re
import sys
from dataclasses import dataclass, field
from functools import cache
from pathlib import Path

TOP = Path(__file__).resolve().parents[2]
sys.path.insert(0, str(TOP / "tools"))

from masonry.model import text_of

# `use Rattle.CRATE.specs.PAGE.{NAMES}`, or `use Rattle.CRATE.specs.PAGE as NAME`.
USE = re.compile(r"(?:pub )?use ((?:\w+\.)*\w+)(?:\.\{(.*)\}| as (\w+))?$")
HEAD = re.compile(r"(?:(?:pub|abbrev|unfoldable|ruleset) )*(?:(?:record|data) )?(?:pub )?([^\s:()]+)")
BEGINS = re.compile(r"(pub (record|data|unfoldable|abbrev|ruleset) |abbrev |unfoldable |record |data "
                    r"|(pub )?[^\s:(){}=]+ :( |$))")


@dataclass
class Page:
    """A file of definitions."""
    path: Path
    # What a name of another page stands for here: its path of `use`, and its name there; and what an `as` stands for.
    imported: dict[str, tuple[str, str]] = field(default_factory=dict)
    aliases: dict[str, str] = field(default_factory=dict)
    # The lines of each definition, its comment among them, and which record or data a field or a case belongs to.
    lines: dict[str, list[str]] = field(default_factory=dict)
    owner: dict[str, str] = field(default_factory=dict)


@cache
def page_of(used: str) -> Page | None:
    """The page at this path of `use`, None if it isn't one of specs/ here."""
    match used.split("."):
        case ["Rattle", crate, "specs", *names] if names and names[0] != "declared":
            path = TOP.joinpath("crates", crate, "specs", *names).with_suffix(".antt")
            return read(path) if path.exists() else None
    return None


@dataclass
class Module:
    """A line `module` that we are in: its indent, its lines, and the indent of what it holds, once that is known."""
    indent: int
    lines: list[str]
    inner: int | None = None

    def is_open(self) -> bool:
        """Whether its heading goes on."""
        return not self.lines[-1].rstrip().endswith("where")


class Reader:
    """Reads a page line by line."""

    def __init__(self, path: Path) -> None:
        self.page, self.comment, self.name = Page(path), list[str](), ""
        self.modules: list[Module] = []

    def take(self, line: str) -> None:
        text, indent = line.strip(), len(line) - len(line.lstrip())
        while text and self.modules and indent <= self.modules[-1].indent:
            self.modules.pop()
        if used := USE.match(line):
            note(self.page, used)
        elif text.startswith("--"):
            self.comment.append(line)
        elif self.modules and self.modules[-1].is_open():
            self.modules[-1].lines.append(line)
        elif text.startswith("module "):
            self.modules.append(Module(indent, [line]))
            self.comment = []
        elif not text or text.startswith(("infix", "pub mod ")):
            self.comment = []
        else:
            self.define(line, text, indent)
            self.comment = []

    def define(self, line: str, text: str, indent: int) -> None:
        """A line that begins a definition, or is one of it: an equation, a field or a case."""
        within = self.modules[-1] if self.modules else Module(0, [], 0)
        within.inner = indent if within.inner is None else within.inner
        if indent == within.inner and BEGINS.match(text) and (head := HEAD.match(text)):
            self.name = head[1]
            above = [it for module in self.modules for it in module.lines]
            self.page.lines.setdefault(self.name, []).extend([*above, *self.comment, line])
        elif self.name:
            self.page.lines[self.name] += [*self.comment, line]
            if of := re.match(r"\s+(?:pub )?(\S+) :", line):
                self.page.owner.setdefault(of[1], self.name)


def read(path: Path) -> Page:
    reader = Reader(path)
    for line in text_of(path).splitlines():
        reader.take(line)
    return reader.page


def note(page: Page, used: re.Match[str]) -> None:
    """Notes what a line `use` brings."""
    path, names, alias = used[1], used[2], used[3]
    if alias:
        page.aliases[alias] = path
    for name in (names or "").split(","):
        there, _, here = name.strip().partition(" as ")
        if there:
            page.imported[here or there] = path, there


def cited(page: Page, name: str) -> list[tuple[str, str]]:
    """What a definition cites: names of its own page, with the path "", and of others, by their paths."""
    found: dict[tuple[str, str], None] = {}
    text = "\n".join(re.sub(r"--.*", "", line) for line in page.lines[name])
    for alias, there in re.findall(r"\b(\w+)\.([^\s(){}\[\],;.]+)", text):
        if alias in page.aliases:
            found[page.aliases[alias], there] = None
    words = set(re.findall(r"[^\s(){}\[\],;.λ]+", text))
    # A block `do` goes from step to step by `>>=`.
    words |= {f"◌{word}◌" for word in words} | ({"◌>>=◌"} if "do" in words else set())
    for word in sorted(words):
        if word in page.lines and word != name:
            found["", word] = None
        elif word in page.imported:
            found[page.imported[word]] = None
    return list(found)


class Reading:
    """What is needed, page by page in the order in which pages are finished, and what stands elsewhere."""

    def __init__(self) -> None:
        self.needed: dict[Path, set[str]] = {}
        self.elsewhere: dict[str, set[str]] = {}

    def need(self, page: Page, name: str) -> None:
        if name not in page.lines and name in page.owner:
            name = page.owner[name]
        if name not in page.lines:
            # A page that hands a name on.
            if name not in page.imported:
                sys.exit(f"definitions: {page.path.relative_to(TOP)} has no {name}")
            self.need_at(page, *page.imported[name])
            return
        if name in self.needed.setdefault(page.path, set()):
            return
        self.needed[page.path].add(name)
        for path, there in cited(page, name):
            self.need_at(page, path, there)

    def need_at(self, page: Page, path: str, name: str) -> None:
        other = page_of(path) if path else page
        if other:
            self.need(other, name)
        else:
            self.elsewhere.setdefault(path, set()).add(name)

    def ordered(self) -> list[Path]:
        """The pages, each below those that cite it."""
        order: dict[Path, None] = {}

        def add(path: Path) -> None:
            page = read(path)
            for used in sorted({*(it for it, _ in page.imported.values()), *page.aliases.values()}):
                other = page_of(used)
                if other and other.path in self.needed and other.path not in order:
                    add(other.path)
            order[path] = None

        for path in self.needed:
            if path not in order:
                add(path)
        return list(order)


def home_of(crate: str, name: str) -> Page:
    """The page of a crate that has this definition."""
    for path in sorted(TOP.glob(f"crates/{crate}/specs/**/*.antt")):
        page = read(path)
        if name in page.lines:
            return page
    sys.exit(f"definitions: specs/ of {crate} has no {name}")


def main(words: list[str]) -> None:
    if len(words) != 2:
        print((__doc__ or "").rstrip(), file=sys.stderr)
        sys.exit(2)
    reading, count, definitions = Reading(), 0, 0
    reading.need(home_of(*words), words[1])
    for path in reading.ordered():
        page = read(path)
        print(f"== {path.relative_to(TOP)}")
        for name, lines in page.lines.items():
            if name in reading.needed[path]:
                print("\n".join(["", *lines]))
                definitions, count = definitions + 1, count + len(lines)
        print()
    print(f"== {definitions} definitions, {count} lines, on {len(reading.needed)} pages")
    for place, names in sorted(reading.elsewhere.items()):
        print(f"== elsewhere: {place}: {' '.join(sorted(names))}")


if __name__ == "__main__":
    main(sys.argv[1:])
