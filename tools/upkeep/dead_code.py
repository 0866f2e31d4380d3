#!/usr/bin/env python3
"""Prints the definitions, lemmas and functions that nothing reaches, file by file.

    tools/upkeep/dead_code.py

All is read off the text, by names and imports. A definition or a lemma is reached if a source names it (an import that
is used, or a path in an attribute), an answer or an invariant does, or what is reached. A case or a field reaches what
it belongs to. A function is reached from `main`, from tests, laws (functions without arguments and result), traits and
their impls, and what stands outside of functions: by its name alone, so a name that two functions share hides both.
What only edits name counts as dead.

What the prover's search finds by itself isn't named: try a lemma that is listed here by a check without it. Python 3.11
or later.
"""
import re
import sys
from collections.abc import Callable, Hashable, Iterable, Iterator
from dataclasses import dataclass, field
from functools import cache
from pathlib import Path
from typing import TypeVar

TOP = Path(__file__).resolve().parents[2]
sys.path.insert(0, str(TOP / "tools"))

from masonry.console import Words, ran
from masonry.model import text_of
from upkeep.definitions import Page, cited, read

CODE = re.compile(r"(//|--).*")  # a comment, which isn't code
GHOST = re.compile(r"ghost use ([\w.]+?)(?:\.\{([^}]*)\}| as (\w+))?;")
ATTRIBUTE = re.compile(r"\b(\w+)::(specs|proofs)::((?:\w+::)*)([^\s,()\]]+)")
FUNCTION = re.compile(r"\s*(?:pub(?:\(\w+\))? )?fn (\w+)")
ROOTS = "Answers.antt", "Invariants.antt"
Node = TypeVar("Node", bound=Hashable)
Names = dict[str, list[str]]


def reached(roots: Iterable[Node], cites: Callable[[Node], Iterable[Node]]) -> set[Node]:
    """What is cited by roots, and by what is cited."""
    found, left = set[Node](), [*roots]
    while left:
        if (node := left.pop()) not in found:
            found.add(node)
            left += cites(node)
    return found


# Definitions and lemmas

Named = tuple[Path, str]  # a page, and a name that it defines


@dataclass
class Library:
    """The pages of a clone."""
    top: Path
    pages: dict[Path, Page] = field(default_factory=dict)

    def __post_init__(self) -> None:
        for folder in "specs", "proofs":
            for path in sorted(self.top.glob(f"crates/*/{folder}/**/*.antt")):
                if path.name != "Lib.antt":
                    self.pages[path] = read(path)

    def path_of(self, used: str) -> Path:
        _, crate, *names = used.split(".")
        return self.top.joinpath("crates", crate, *names).with_suffix(".antt")

    def home(self, used: str, name: str) -> list[Named]:
        """Where a name of an imported page is defined, if that is here; pages hand names on."""
        page = self.pages.get(self.path_of(used)) if used.startswith("Rattle.") else None
        if page is None:
            return []
        name = page.owner.get(name, name)
        if name in page.lines:
            return [(page.path, name)]
        return self.home(*page.imported[name]) if name in page.imported else []

    def cites(self, named: Named) -> list[Named]:
        path, name = named
        page = self.pages[path]
        return [it for used, there in cited(page, name)
                for it in (self.home(used, there) if used else [(path, there)])]

    def roots(self) -> Iterator[Named]:
        for path, page in self.pages.items():
            if path.name in ROOTS:
                yield from ((path, name) for name in page.lines)
        for path in sorted(self.top.glob("crates/*/src/**/*.rt")):
            yield from self.roots_of(path)

    def roots_of(self, path: Path) -> Iterator[Named]:
        """What a source names."""
        text = "\n".join(CODE.sub("", line) for line in text_of(path).splitlines())
        crate, words = path.relative_to(self.top).parts[1], words_of(GHOST.sub("", text))
        for used, names, alias in GHOST.findall(text):
            for name in names.split(","):
                there, _, here = name.strip().partition(" as ")
                if (here or there).strip("◌") in words:
                    yield from self.home(used, there)
            for there in re.findall(rf"\b{alias}\.([^\s(){{}}\[\],;.]+)", text) if alias else ():
                yield from self.home(used, there)
        for first, folder, names, name in ATTRIBUTE.findall(text):
            owner = crate if first == "crate" else first
            yield from self.home(".".join(["Rattle", owner, folder, *names.split("::")[:-1]]), name)

    def dead(self) -> Names:
        found: Names = {}
        alive = reached(self.roots(), self.cites)
        for path, page in self.pages.items():
            if path.name not in ROOTS:
                for name in page.lines:
                    if (path, name) not in alive:
                        found.setdefault(str(path.relative_to(self.top)), []).append(name)
        return found


def words_of(text: str) -> set[str]:
    return set(re.findall(r"[^\s(){}\[\],;.λ◌<>&:]+", text)) | set(re.findall(r"[^\s\w(){}\[\],;.◌]+", text))


# Functions


@dataclass(frozen=True)
class Function:
    """A function of a source, its lines, and whether it is reached anyway. What it names are the words of its lines."""
    path: Path
    name: str
    lines: tuple[str, ...]
    public: bool
    root: bool

    @property
    def head(self) -> tuple[str, ...]:
        """The lines before its body: its arguments and its contract."""
        ends = (k for k, line in enumerate(self.lines) if line.rstrip().endswith("{") or line.strip() == "{}")
        return self.lines[:next(ends, len(self.lines))]

    def words(self) -> set[str]:
        return plain_words("\n".join(self.lines))


def functions_of(path: Path) -> tuple[list[Function], set[str]]:
    """The functions of a source, and the words outside of them and of lines `use`."""
    found, outside, block, body, name = list[Function](), set[str](), "", list[str](), ""
    marks, indent, public = "", 0, False
    for line in text_of(path).splitlines():
        text, here = CODE.sub("", line), len(line) - len(line.lstrip())
        if name:
            body.append(text)
        elif begins := FUNCTION.match(text):
            name, indent, body, public = begins[1], here, [text[begins.end():]], begins[0].lstrip().startswith("pub")
        elif text.strip():
            marks = marks + text if text.strip().startswith("#[") else ""
            block = text if here == 0 and re.match(r"(pub )?(impl|trait)\b", text) else "" if text == "}" else block
            if not re.match(r"\s*(pub )?(ghost )?use\b", text):
                outside |= plain_words(text)
        if name and here == indent and text.rstrip().endswith("}"):
            law = body[0].strip() == "()"
            root = law or "#[test]" in marks or name == "main" or " for " in block or "trait" in block
            found.append(Function(path, name, tuple(body), public, root))
            name, marks = "", ""
    return found, outside


def plain_words(text: str) -> set[str]:
    return set(re.findall(r"\w+", text))


def dead_functions(top: Path) -> Names:
    functions, outside = list[Function](), set[str]()
    for path in sorted(top.glob("crates/*/src/**/*.rt")):
        more, words = functions_of(path)
        functions += more
        outside |= words
    named: dict[str, list[Function]] = {}
    for one in functions:
        named.setdefault(one.name, []).append(one)
    roots = [one for one in functions if one.root or one.name in outside]
    alive = reached(roots, lambda one: [other for word in one.words() for other in named.get(word, ())])
    found: Names = {}
    for one in functions:
        if one not in alive:
            found.setdefault(str(one.path.relative_to(top)), []).append(f"fn {one.name}")
    return found


@cache
def dead_names(top: Path) -> Names:
    """The names that nothing reaches, by file."""
    return {**Library(top).dead(), **dead_functions(top)}


def printed(words: list[str]) -> int:
    if words:
        raise Words("there are no words")
    for name, of in sorted(dead_names(TOP).items()):
        print(f"{name}: {' '.join(of)}")
    return 0


def main(words: list[str]) -> int:
    return ran(lambda _: printed(words), "dead_code", __doc__, words or [""])


if __name__ == "__main__":
    sys.exit(main(sys.argv[1:]))
