#!/usr/bin/env python3
"""Prints the pages that only repeat what the sources say, so that nobody keeps them by hand.

    tools/upkeep/reference.py write
    tools/upkeep/reference.py compare

The pages are named in PAGES, each with what it lists, crate by crate in the order of crates.txt:

- **calls**: the functions and methods that each crate lends (by `pub use` in lib.rt), with the comment above
  them, up to its first empty line, and the names of their conditions and clauses.
- **definitions**: the definitions that these conditions and clauses name, with the comment above them; and the records
  that records among these name. Of a record also the fields that have a comment.

`write` writes them. `compare` names each that isn't what would be written, and then the status is 1: the gate calls it.
All is read off the text, by names. Python 3.11 or later.
"""
import re
import sys
from collections.abc import Iterable, Iterator, Sequence
from dataclasses import dataclass, field
from functools import cache
from itertools import takewhile
from pathlib import Path
from textwrap import fill

TOP = Path(__file__).resolve().parents[2]
PAGES = {"calls": "docs/proofs/calls.md", "definitions": "docs/proofs/cited.md"}
HEADS = {
    "calls": """# What each crate lends

Printed from the sources by tools/upkeep/reference.py, and compared with them by the gate: change the comments there,
and not this page. [contracts.md](contracts.md) has what the clauses say as a whole. A clause without a name is the only
one of its function. A *law* is a function that does nothing. Conditions stand behind "needs".
""",
    "definitions": """# The definitions that public clauses name

Printed from the comments in crates/*/specs by tools/upkeep/reference.py, and compared with them by the gate: change the
comments there, and not this page. [definitions.md](definitions.md) has the words. `tools/upkeep/definitions.py CRATE
NAME` prints a definition after all those on which it rests. Loads and sums are in sixths of a unit of force, points in
units of the grid. Below a record stand its fields that have a comment.
"""}
ITEM = re.compile(r"( *)(?:pub )?(?:const )?fn (\w+)")
CLAUSE = re.compile(r"(requires|ensures)(?: (\w+))? \{")
GHOST = re.compile(r"\s*ghost use Rattle\.(\w+)\.specs\.([\w.]+?)\.\{(.*)\};")
LENT = re.compile(r"pub use (?:\w+::)+(?:\{([^}]*)\}|(\w+));", re.S)
OWNER = re.compile(r"(?:(pub) )?(?:impl(?:<.*?>)?|trait) (\w+)(.*)\{$")
USE = re.compile(r"use Rattle\.(\w+)\.specs\.([\w.]+?)\.\{(.*)\}")
FIELD = re.compile(r"  (?:pub )?(\w+) :")
Place = tuple[str, str, str]
BEGUN = re.compile(r"(?:pub |abbrev |unfoldable |ruleset |record |data )*pub (?:record |data )?([^\s:(){}]+)")


@dataclass
class Call:
    """A function or method: its name, its comment, and its clauses by kind."""
    name: str
    owner: str
    says: str
    needs: list[str] = field(default_factory=list)
    gives: list[str] = field(default_factory=list)
    text: str = ""

    def title(self) -> str:
        return f"{self.owner}::{self.name}" if self.owner else self.name


def first_paragraph(lines: Iterable[str]) -> str:
    """A comment up to its first empty line."""
    text = ""
    for line in lines:
        if not line.strip():
            break
        text += " " + line.strip()
    return text.strip()


def lent(crate: Path) -> set[str]:
    """What lib.rt lends by name. A program has none."""
    root = crate / "src/lib.rt"
    found = LENT.findall(root.read_text()) if root.exists() else []
    return {name.strip().split(" as ")[0] for many, one in found for name in (many or one).split(",") if name.strip()}


def crates(top: Path) -> Iterator[tuple[str, str]]:
    """The crates of crates.txt that aren't of tests, each with its line."""
    comment = ""
    for line in (top / "crates.txt").read_text().splitlines():
        if line.startswith("# "):
            comment = line[2:]
        elif ":" in line and not line.startswith("#") and not line.split(":")[0].endswith("_tests"):
            yield line.split(":")[0], comment


def calls_of(path: Path) -> Iterator[Call]:
    """The functions of a source file that are `pub`, and those of a `pub trait`, as they stand."""
    comment: list[str] = []
    owner, of_trait = "", False
    call: Call | None = None
    indent = 0
    for line in path.read_text().splitlines():
        text = line.strip()
        if call is not None:
            begins = re.match(r" *", line)
            if text.startswith("{") and begins and len(begins[0]) == indent or text == "{}":
                yield call
                call = None
            else:
                note(call, text)
                if of_trait and text.endswith(";"):
                    yield call
                    call = None
            continue
        if text.startswith("///"):
            comment.append(text[3:].strip())
        elif not line.startswith(" ") and (head := OWNER.match(line)):
            of_trait = bool(head[1]) and " for " not in line
            owner = head[2] if " for " not in head[3] else ""
            comment = []
        elif line == "}":
            owner, of_trait, comment = "", False, []
        elif (item := ITEM.match(line)) and (text.startswith("pub ") or of_trait):
            call, indent = Call(item[2], owner if item[1] else "", first_paragraph(comment)), len(item[1])
            comment = []
            if of_trait and text.endswith(";"):
                yield call
                call = None
        elif not text.startswith("#["):
            comment = []


def note(call: Call, text: str) -> None:
    """Takes a line between a function's name and its body: its clauses, and what they name."""
    if clause := CLAUSE.match(text):
        (call.needs if clause[1] == "requires" else call.gives).append(clause[2] or "")
    call.text += " " + text


def lends(top: Path, crate: str) -> list[tuple[Path, Call]]:
    """What a crate lends, file by file."""
    folder = top / "crates" / crate
    names = lent(folder)
    return [(path, call) for path in sorted(folder.glob("src/**/*.rt")) if path.name not in ("lib.rt", "tests.rt")
            for call in calls_of(path) if (call.owner or call.name) in names]


def cell(text: str) -> str:
    return text.replace("|", "\\|")


def clauses(names: Sequence[str]) -> str:
    return ", ".join(f"`{name}`" for name in dict.fromkeys(names) if name)


def calls(top: Path) -> Iterator[str]:
    yield HEADS["calls"]
    for crate, says in crates(top):
        found = lends(top, crate)
        if found:
            said = fill(says[:1].upper() + says[1:] + ".", 120, break_long_words=False, break_on_hyphens=False)
            yield f"## {crate}\n\n{said}\n\n| Call | What it gives | Clauses |\n|---|---|---|"
            for _, call in found:
                needs = clauses(call.needs) or ("a condition" if call.needs else "")
                told = "; ".join(it for it in (clauses(call.gives), needs and f"needs {needs}") if it)
                yield f"| `{call.title()}` | {cell(call.says)} | {told} |"
            yield ""


@dataclass
class Definition:
    """A definition of a page in specs/: its comment, its text, and the comments of its fields if it is a record."""
    says: str
    is_record: bool
    text: str = ""
    fields: dict[str, str] = field(default_factory=dict)


@dataclass
class Page:
    """A page of specs/: its definitions, and what a name of another page stands for: that crate, page and name."""
    definitions: dict[str, Definition] = field(default_factory=dict)
    imported: dict[str, Place] = field(default_factory=dict)


def imports(lines: Iterable[str], use: re.Pattern[str]) -> dict[str, Place]:
    """What the names of a file stand for that its lines `use` bring."""
    return {name.strip().split(" as ")[-1]: (found[1], found[2], name.strip().split(" as ")[0])
            for line in lines if (found := use.match(line)) for name in found[3].split(",")}


@cache
def page_of(top: Path, crate: str, name: str) -> Page:
    """A page of specs/. One that isn't there, as of the types of the sources, has nothing."""
    path = top.joinpath("crates", crate, "specs", *name.split(".")).with_suffix(".antt")
    page = Page()
    if not path.exists():
        return page
    lines = path.read_text().splitlines()
    page.imported = imports(lines, USE)
    comment: list[str] = []
    above = [line[3:].strip() for line in takewhile(lambda line: line.startswith("--"), lines)]
    last: Definition | None = None
    for line in lines:
        if line.strip().startswith("-- "):
            comment.append(line.strip()[3:])
            continue
        if head := BEGUN.match(line):
            # What stands at the head of a page is said of its first definition, if that has no comment of its own.
            says = comment or ([] if page.definitions else above)
            last = page.definitions.setdefault(head[1], Definition(" ".join(says), "record " in line))
        elif last and comment and (of := FIELD.match(line)):
            last.fields[of[1]] = " ".join(comment)
        if last:
            last.text += " " + line
        comment = []
    return page


def words(text: str) -> list[str]:
    return re.findall(r"[^\s(){}\[\],;.λ]+", text)


def named(top: Path, crate: str) -> Iterator[Place]:
    """The definitions that the clauses of a crate name."""
    for path, call in lends(top, crate):
        imported = imports(path.read_text().splitlines(), GHOST)
        yield from (imported[word] for word in words(call.text) if word in imported)


def with_records(top: Path, cited: set[Place]) -> set[Place]:
    """These definitions, with the records that records among them name."""
    found: set[Place] = set()
    due = list(cited)
    while due:
        place = due.pop()
        page = page_of(top, *place[:2])
        one = page.definitions.get(place[2])
        if one is None or place in found:
            continue
        found.add(place)
        for word in words(one.text) if one.is_record else []:
            other = page.imported.get(word, (*place[:2], word))
            if (there := page_of(top, *other[:2]).definitions.get(other[2])) and there.is_record:
                due.append(other)
    return found


def definitions(top: Path) -> Iterator[str]:
    yield HEADS["definitions"]
    cited = with_records(top, {it for crate, _ in crates(top) for it in named(top, crate)})
    for crate, _ in crates(top):
        rows = []
        for name in sorted({page for of, page, _ in cited if of == crate}):
            for title, one in page_of(top, crate, name).definitions.items():
                if (crate, name, title) in cited and (one.says or one.fields):
                    rows.append(f"| `{title}` | {cell(one.says)} | {name} |")
                    rows += [f"| - `{of}` | {cell(says)} | |" for of, says in one.fields.items()]
        if rows:
            yield "\n".join([f"## {crate}", "", "| Name | What it says | File |", "|---|---|---|", *rows, ""])


def page(top: Path, kind: str) -> str:
    """A page as it should be."""
    made = calls(top) if kind == "calls" else definitions(top)
    return "\n".join(made).rstrip("\n") + "\n"


def main(asked: Sequence[str], top: Path = TOP) -> int:
    if list(asked) not in (["write"], ["compare"]):
        print((__doc__ or "").rstrip(), file=sys.stderr)
        return 2
    wrong = [name for kind, name in PAGES.items()
             if not (top / name).exists() or (top / name).read_text() != page(top, kind)]
    if asked[0] == "write":
        for kind, name in PAGES.items():
            (top / name).parent.mkdir(parents=True, exist_ok=True)
            (top / name).write_text(page(top, kind))
        return 0
    for name in wrong:
        print(f"{name} isn't what the sources say: tools/upkeep/reference.py write")
    return 1 if wrong else 0


if __name__ == "__main__":
    sys.exit(main(sys.argv[1:]))
