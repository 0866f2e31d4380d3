#!/usr/bin/env python3
"""Looks whether the pages are true: their links, the headings that they cite, and the commands that they show.

    tools/upkeep/pages.py [PAGE..]

The pages are README.md, CONTRIBUTING.md, docs/*/*.md and examples/*.md, or those that are named. A line on standard
output names each fault, with its page and line. The last line counts; the status is 1 if there is a fault, and 0
otherwise.

- **A link** `[text](FILE#ANCHOR)` names a file that is there, and a heading of that page, spelled as GitHub does. Links
  to other sites aren't looked at.
- **A cited heading** is in words: `formats.md, "The range"`, `README ("How to run it")`, `"Units" below`, or
  `arch.md, step 7`. The page has such a heading, or a paragraph that begins with these words in bold.
- **A command** is a line of a fenced block that begins with `$ `. If it isn't whole, it goes on in lines that begin
  with `> `. What follows, up to the next command or the end of the block, is all that it prints, to standard output
  and standard error. A line `..` there stands for any lines. What stands before the first command isn't looked at,
  and neither is a block without one.

The commands of a page are run in order, by one bash, in a folder of their own, which has copies of examples/ and tools/
and links to the rest. So what one of them writes is there for the next, and nothing is left behind. The program is
./pungiroe, or what the environment variable PUNGIROE names. If esolver isn't installed, no command of a page is run on
which one calls tools/solve.py. Python 3.11.
"""
import difflib
import os
import re
import secrets
import shutil
import subprocess
import sys
import time
from collections.abc import Iterator
from concurrent.futures import ThreadPoolExecutor
from dataclasses import dataclass, field
from functools import cache
from pathlib import Path
from tempfile import TemporaryDirectory

TOP = Path(__file__).resolve().parents[2]
# How long the commands of a page may take together, in seconds.
LONGEST = 900
# A page that takes longer is named at the end.
LONG = 5
# A heading in words may have quotes in it, so its end is found by the headings that there are.
CITED = re.compile(r'\b(README|CONTRIBUTING|[\w/]+)(?:\.md)?(?:`|\))?(?:,? in|,|:)?\s*\(?"(?=\S)')
NEAR = re.compile(r'"([^"]+)",? (?:above|below)\b')
STEP = re.compile(r"\b(\w+)\.md(?:`|\))?, steps? (\d+)(?: (?:and|to) (\d+))?")
LINK = re.compile(r"\[[^\[\]\0]*\]\(([^()\s]*)\)")


@dataclass
class Command:
    """A command of a page, from this line on, and what the page says that it prints."""
    line: int
    text: str
    printed: list[str] = field(default_factory=list)


@dataclass
class Page:
    path: Path
    # The lines outside fenced blocks, and in them; a line that is no such has None.
    prose: list[str | None] = field(default_factory=list)
    commands: list[Command] = field(default_factory=list)
    headings: list[str] = field(default_factory=list)
    # What paragraphs begin with in bold.
    leads: list[str] = field(default_factory=list)

    def anchors(self) -> set[str]:
        """The anchors that GitHub gives the headings: the second of two equal ones ends with -1."""
        seen: dict[str, int] = {}
        for heading in self.headings:
            anchor = re.sub(r"[^\w\- ]", "", heading.lower()).replace(" ", "-")
            number = seen[anchor] = seen.get(anchor, -1) + 1
            if number:
                seen[f"{anchor}-{number}"] = 0
        return set(seen)

    def titles(self) -> list[str]:
        """What can be cited, the longest first."""
        return sorted({plain(it) for it in (*self.headings, *self.leads)}, key=len, reverse=True)


def plain(text: str) -> str:
    """The words of a text, without marks of Markdown."""
    return re.sub(r"\s+", " ", re.sub(r"\[([^\[\]]*)\]\([^()]*\)", r"\1", text).replace("`", "")).strip()


@cache
def read(path: Path) -> Page:
    page, fence = Page(path), ""
    for number, line in enumerate(path.read_text().splitlines(), 1):
        text = line.strip()
        marks = re.match(r"(`{3,}|~{3,})", text)
        if marks and (not fence or text == fence):
            fence, indent = ("", 0) if fence else (marks[1], len(line) - len(line.lstrip()))
            page.prose.append(None)
            in_command = False
        elif not fence:
            page.prose.append(line)
            note(page, text)
        else:
            page.prose.append(None)
            inner = line[indent:] if not line[:indent].strip() else line
            if inner.startswith("$ "):
                page.commands.append(Command(number, inner[2:]))
                in_command = True
            elif in_command:
                last = page.commands[-1]
                if inner.startswith("> ") and not last.printed and goes_on(last.text):
                    last.text += "\n" + inner[2:]
                else:
                    last.printed.append(inner)
    return page


def goes_on(command: str) -> bool:
    """Whether a command isn't whole: it ends with a backslash, or bash finds no end of it or of a here-document."""
    parsed = subprocess.run(["bash", "-n", "-c", command], stderr=subprocess.PIPE, text=True)
    return command.endswith("\\") or parsed.returncode != 0 or "here-document" in parsed.stderr


def note(page: Page, text: str) -> None:
    """Notes a heading, or the bold words with which a paragraph, an item or a cell begins."""
    if heading := re.match(r"#+\s+(.*?)\s*#*$", text):
        page.headings.append(re.sub(r"\[([^\[\]]*)\]\([^()]*\)", r"\1", heading[1]).replace("`", ""))
    elif lead := re.match(r"(?:(?:[-*]|\d+\.)\s+|\|\s*)?\*\*(.+?)[.:,]?\*\*", text):
        page.leads.append(lead[1].rstrip(".:,"))


# Links and headings


class Prose:
    """A page's text outside fenced blocks as one line, with the number of the line of each character."""

    def __init__(self, page: Page) -> None:
        parts: list[str] = []
        self.numbers: list[int] = []
        for number, line in enumerate(page.prose, 1):
            # A paragraph doesn't go on over an empty line, a heading or a block.
            text = " \0 " if not line or line.startswith("#") else line.strip() + " "
            parts.append(text)
            self.numbers += [number] * len(text)
        self.text = "".join(parts)

    def line(self, at: int) -> int:
        return self.numbers[at]


def links(page: Page) -> Iterator[tuple[int, str | None]]:
    """The line of each link, and its fault or None."""
    prose = Prose(page)
    # What stands in backticks is no link.
    for link in LINK.finditer(re.sub(r"`[^`\0]*`", lambda it: "x" * len(it[0]), prose.text)):
        if not re.match(r"[a-z]+:", link[1]):
            yield prose.line(link.start(1)), fault_of_link(page, link[1])


def fault_of_link(page: Page, target: str) -> str | None:
    name, _, anchor = target.partition("#")
    path = (page.path.parent / name).resolve() if name else page.path
    if name.startswith("/") or not path.exists():
        return f"no file {target}"
    if anchor and (path.suffix != ".md" or anchor not in read(path).anchors()):
        return f"no anchor {target}"
    return None


def cited(page: Page, top: Path) -> Iterator[tuple[int, str | None]]:
    """The line of each heading that is cited in words, and its fault or None."""
    prose = Prose(page)
    for it in CITED.finditer(prose.text):
        named = page_named(it[1], it[0], page, top)
        if named is None:
            continue
        yield from titled(prose, it.end(), named, top)
    for it in NEAR.finditer(prose.text):
        # The quotes of a heading may be nested: any title that ends there will do.
        ending = plain(prose.text[max(0, it.end(1) - 200):it.end(1)])
        known = any(ending.endswith(title) for title in page.titles())
        yield prose.line(it.start()), None if known else f'no heading "{it[1]}" on this page'
    for it in STEP.finditer(prose.text):
        named = page_named(it[1], it[0], page, top)
        for step in (it[2], it[3]):
            if named and named.exists() and step:
                yield prose.line(it.start()), None if has_step(read(named), step) else f"no step {step} in {named.name}"


def has_step(page: Page, step: str) -> bool:
    """Whether a page has a heading, or a row of a table, with this number."""
    rows = (re.match(rf"\| {step} \|", line or "") for line in page.prose)
    return any(rows) or any(heading.startswith(f"{step}. ") for heading in page.headings)


def titled(prose: Prose, at: int, named: Path, top: Path) -> Iterator[tuple[int, str | None]]:
    """The heading that is cited from this place on, and those after it, as in `"A" and "B"`."""
    while True:
        if not named.exists():
            yield prose.line(at), f"no page {named.relative_to(top)}"
            return
        rest = plain(prose.text[at:at + 200].split("\0")[0])
        title = next((it for it in read(named).titles() if rest.startswith(it + '"')
                      or rest.startswith(it) and rest[len(it):len(it) + 2] in ('."', ',"', ':"')), None)
        if title is None:
            yield prose.line(at), f'no heading "{rest.split(chr(34))[0]}" in {named.relative_to(top)}'
            return
        yield prose.line(at), None
        end = prose.text.find('"', at)
        while plain(prose.text[at:end]).rstrip(".,:") != title and end >= 0:
            end = prose.text.find('"', end + 1)
        more = re.compile(r'"(?:,? and|,? or|,) "').match(prose.text, end)
        if not more:
            return
        at = more.end()


def page_named(word: str, text: str, page: Page, top: Path) -> Path | None:
    """The page that a word in front of a quoted heading names, or None."""
    if word in ("README", "CONTRIBUTING"):
        return top / f"{word}.md"
    if ".md" not in text:
        return None
    places = (top / f"{word}.md", page.path.parent / f"{word}.md", *sorted(top.glob(f"docs/**/{word}.md")))
    there = next((it for it in places if it.exists()), None)
    # Pages of Rattle's kit have their names in capitals.
    return there or (None if word.isupper() or "rattle" in word else places[0])


# Commands


def ran(page: Page, top: Path) -> Iterator[tuple[int, str | None]]:
    """The line of each command, and its fault or None."""
    if not page.commands:
        return
    token = secrets.token_hex(8)
    with TemporaryDirectory() as folder, TemporaryDirectory() as aside:
        place(Path(folder), top)
        driver = []
        for number, command in enumerate(page.commands):
            Path(aside, str(number)).write_text(command.text)
            driver.append(f'eval "$(cat {aside}/{number})"\nprintf "\\n%s\\n" {token}\n')
        Path(aside, "all").write_text("".join(driver))
        try:
            how = {**os.environ, "PYTHONDONTWRITEBYTECODE": "1", "PUNGIROE_PATIENCE": "1000"}
            output = subprocess.run(["bash", f"{aside}/all"], cwd=folder, env=how, stdin=subprocess.DEVNULL,
                                    stdout=subprocess.PIPE, stderr=subprocess.STDOUT, timeout=LONGEST).stdout
        except subprocess.TimeoutExpired as late:
            output = late.stdout or b""
    parts = output.decode(errors="replace").split(f"\n{token}\n")
    # Without its mark a command didn't end.
    parts, unended = parts[:-1], parts[-1]
    for number, command in enumerate(page.commands):
        if number < len(parts):
            printed = parts[number].splitlines()
            yield command.line, None if matches(command.printed, printed) else difference(command, printed)
        else:
            told = ["it didn't end, or wasn't begun", *unended.splitlines()]
            yield command.line, f"$ {command.text}\n{indented(told)}"
            unended = ""


def place(folder: Path, top: Path) -> None:
    """Fills a folder with what commands may need."""
    for it in top.iterdir():
        if it.name in ("examples", "tools"):
            shutil.copytree(it, folder / it.name, symlinks=True, ignore=shutil.ignore_patterns("__pycache__"))
        elif not it.name.startswith(".") and it.name != "pungiroe":
            (folder / it.name).symlink_to(it)
    (folder / "pungiroe").symlink_to(Path(os.environ.get("PUNGIROE") or top / "pungiroe").absolute())


def matches(wanted: list[str], printed: list[str]) -> bool:
    """Whether lines are those that are wanted, where `..` stands for any lines."""
    if ".." not in wanted:
        return wanted == printed
    at = wanted.index("..")
    if wanted[:at] != printed[:at]:
        return False
    return any(matches(wanted[at + 1:], printed[k:]) for k in range(at, len(printed) + 1))


def difference(command: Command, printed: list[str]) -> str:
    lines = difflib.unified_diff(command.printed, printed, "page", "printed", lineterm="", n=0)
    return f"$ {command.text}\n{indented(list(lines)[2:])}"


def indented(lines: list[str]) -> str:
    shown = lines if len(lines) <= 40 else [*lines[:40], f".. and {len(lines) - 40} lines"]
    return "\n".join(f"    {line}" for line in shown)


# All pages


@dataclass
class Looked:
    """What was found on a page."""
    faults: list[str]
    links: int = 0
    headings: int = 0
    commands: int = 0
    seconds: float = 0
    left_out: bool = False


def look(path: Path, top: Path) -> Looked:
    page, began = read(path), time.monotonic()
    left_out = any("solve.py" in it.text for it in page.commands) and not shutil.which("esolver")
    found = [list(links(page)), list(cited(page, top)), [] if left_out else list(ran(page, top))]
    faults = [f"{path.relative_to(top)}:{line}: {fault}" for kind in found for line, fault in kind if fault]
    return Looked(faults, len(found[0]), len(found[1]), len(found[2]), time.monotonic() - began, left_out)


def pages_of(top: Path) -> list[Path]:
    folders = (it for folder in ("docs", "examples") for it in sorted(top.glob(f"{folder}/**/*.md")))
    return [top / "README.md", top / "CONTRIBUTING.md", *folders]


def main(words: list[str], top: Path = TOP) -> int:
    paths = [Path(word).resolve() for word in words] or [it for it in pages_of(top) if it.exists()]
    # Pages with many commands begin first.
    order = sorted(paths, key=lambda it: -len(read(it).commands))
    with ThreadPoolExecutor(max(1, len(os.sched_getaffinity(0)) // 2)) as pool:
        looked = dict(zip(order, pool.map(lambda it: look(it, top), order)))
    for path in paths:
        one, name = looked[path], path.relative_to(top)
        print("".join(f"{fault}\n" for fault in one.faults), end="")
        if one.left_out:
            print(f"skipped: the commands of {name}, which need esolver")
        if one.seconds > LONG:
            print(f"{name} took {one.seconds:.0f} s")
    counts = [sum(getattr(it, kind) for it in looked.values()) for kind in ("links", "headings", "commands")]
    faults = sum(len(it.faults) for it in looked.values())
    print(f"{counts[0]} links, {counts[1]} cited headings, {counts[2]} commands: {faults} faults")
    return 1 if faults else 0


if __name__ == "__main__":
    sys.exit(main(sys.argv[1:]))
