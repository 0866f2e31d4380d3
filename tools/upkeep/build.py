#!/usr/bin/env python3
"""Proves and builds the program and all crates below it, several crates side by side.

`pungiroe` calls it if the program is missing, or isn't made from the sources that are there. Each crate is proved by
the prover that rt calls too, over the libraries of the crates below it. A library holds what other crates can cite of
its crate, and not its proofs, so that a check above it has less to load. It stands in out/library of its crate, apart
from what rt makes, with a sum of all that it is made from: as long as that stays the same, it isn't made again. If `rt
check` has kept what it checked of a crate, in out/incremental, that is used and added to; the library then holds the
proofs as well.

A crate begins once all that it stands on is made, and as many provers run at once as there are processors, since more
of them take more processor time for the same work. Crates with the most work behind them go first, with two provers
each; the less work a crate has behind it, the lower its priority. A line for each crate goes to standard error; what
the prover says goes to crates/pungiroe/out/build.log. The exit status is 0 if the program is built.

If the kit isn't one that this was run with, or lacks a word or a file that is needed, rt's own commands do the work:
`rt lib` for one crate after the other, and `rt run` for the program. That takes longer. BUILD_BY=rt in the environment
asks for that, and BUILD_BY=prover for the prover, on any kit that has all words and files. A line says which way was
taken, and why.

If a source changes while the work goes on, the program isn't kept, the exit status is 1, and the next run makes what is
to be made again.
"""
import fcntl
import functools
import glob
import hashlib
import os
import shutil
import subprocess
import sys
import time
from collections.abc import Iterable, Iterator
from concurrent.futures import FIRST_COMPLETED, Future, ThreadPoolExecutor, wait
from dataclasses import dataclass
from typing import TextIO

PROGRAM = "pungiroe"
# The lines of identity of the kits that this was run with.
KITS = ("rattle-kit-13f logic dac8208d650f15bf",)
# What the prover and its kit must have, besides what an option of theirs may add.
WORDS = "--crate-name --extern -L --antt-project --logic-built --jobs --incremental --toolchain -o".split()
FILES = ("bin/rattle", "bin/rattle-link", "rlibs/std.rlib", "rattle/logic/antt-project.json", "logic_built",
         "toolchain", "c/libos_c.a", "c/liblibc_c.a", "WHAT")
STARTED = time.monotonic()
# What the proof of a crate takes at most, in bytes of memory.
MEMORY = 3_500_000_000
# The most provers on one crate, and the least on an urgent one: several on one crate take more processor time than one.
MOST_PROVERS, URGENT_PROVERS = 4, 2
# A crate is urgent if it has at least this share of the most work that any crate has behind it that isn't made yet.
URGENT = 0.9
# What any crate takes beside its functions, as bytes of sources.
LEAST_WORK = 4_000


def processors() -> int:
    return len(os.sched_getaffinity(0))


def places() -> int:
    """How many provers run at once: one a processor, as far as there is memory for as many crates."""
    with open("/proc/meminfo", encoding="ascii") as file:
        free = next(1024 * int(line.split()[1]) for line in file if line.startswith("MemAvailable:"))
    return max(1, min(processors(), free // MEMORY))


def told(line: str) -> None:
    print(line, file=sys.stderr, flush=True)


def tell(number: int, count: int, name: str) -> None:
    """Tells which crate is under way, and how long the whole took so far."""
    told(f"{(time.monotonic() - STARTED) / 60:5.1f} min, proving {number} of {count}: {name}")


@dataclass(eq=False)
class Clone:
    """A clone of the repository, and the kit that proves it. Each object reads what it needs of both once."""
    top: str
    kit: str

    @functools.cache
    def listed(self) -> dict[str, list[str]]:
        """What crates.txt says of each crate: the crates that it names, those of the toolchain too."""
        with open(f"{self.top}/crates.txt", encoding="utf-8") as file:
            lines = (line.split("#")[0].partition(":") for line in file)
            return {name.strip(): others.split() for name, colon, others in lines if colon}

    def named_by(self, name: str) -> list[str]:
        """The crates of this repository that a crate names."""
        return [other for other in self.listed()[name] if other in self.listed()]

    @functools.cache
    def below(self, name: str) -> list[str]:
        """All crates of this repository that a crate stands on, lowest first."""
        return [*dict.fromkeys(it for other in self.named_by(name) for it in (*self.below(other), other))]

    def folder(self, name: str) -> str:
        return f"{self.top}/crates/{name}"

    def library(self, name: str) -> str:
        return f"{self.folder(name)}/out/library/{name}.rlib"

    def log(self) -> str:
        return f"{self.folder(PROGRAM)}/out/build.log"

    def program(self) -> str:
        return f"{self.folder(PROGRAM)}/out/{PROGRAM}"

    # Sums

    @functools.cache
    def files_of(self, name: str) -> list[str]:
        """The files of which a crate is made."""
        parts = (f"{glob.escape(self.folder(name))}/{part}/**/*.*" for part in ("src", "specs", "proofs"))
        return sorted(file for part in parts for file in glob.glob(part, recursive=True))

    @functools.cache
    def sum_of(self, name: str) -> str:
        """A sum of all that a crate is made from: its files, the toolchain, and what it stands on. It is the same
        wherever the clone and the kit lie."""
        made_from = hashlib.sha256(repr(self.listed()[name]).encode())
        named = [("kit", f"{self.kit}/WHAT")]
        named += [(os.path.relpath(file, self.top), file) for file in self.files_of(name)]
        for called, file in named:
            with open(file, "rb") as it:
                made_from.update(repr((called, it.read())).encode())
        for other in self.named_by(name):
            made_from.update(self.sum_of(other).encode())
        return made_from.hexdigest()

    def is_made(self, name: str) -> bool:
        """Whether the library of a crate is there, made from what is there now."""
        wanted, mark = self.sum_of(name), f"{os.path.dirname(self.library(name))}/sum"
        if not (os.path.isdir(self.library(name)) and os.path.isfile(mark)):
            return False
        with open(mark, encoding="ascii", errors="replace") as file:
            return file.read() == wanted

    # Work

    def work_of(self, name: str) -> int:
        """The work on a crate: it goes by the bytes of its functions, and hardly by those of its lemmas."""
        functions = (it for it in self.files_of(name) if it.endswith(".rt") and "/src/tests" not in it)
        return LEAST_WORK + sum(map(os.path.getsize, functions))

    def work_behind(self, crates: list[str]) -> dict[str, int]:
        """How much work begins with each crate and goes on with those that wait for it."""
        behind: dict[str, int] = {}
        for name in reversed(crates):
            waiting = (behind[it] for it in behind if name in self.named_by(it))
            behind[name] = self.work_of(name) + max(waiting, default=0)
        return behind

    # The prover

    def identity(self) -> str:
        """The line of identity of the kit."""
        try:
            with open(f"{self.kit}/KIT-ID", encoding="utf-8", errors="replace") as file:
                return file.read().strip()
        except OSError:
            return "without a name"

    @functools.cache
    def helps(self) -> str:
        """What the prover says of its words."""
        command = [f"{self.kit}/bin/rattle", "build", "--help"]
        try:
            return subprocess.run(command, stdout=subprocess.PIPE, text=True, errors="replace").stdout
        except OSError:
            return ""

    def knows(self, word: str) -> bool:
        """Whether the prover has this option."""
        return word in self.helps().replace(",", " ").split()

    def lacks(self) -> Iterator[str]:
        """What the kit lacks of what the prover is called with."""
        for file in FILES:
            if not os.path.exists(f"{self.kit}/{file}"):
                yield f"the kit has no {file}"
        for word in WORDS:
            if not self.knows(word):
                yield f"the prover doesn't know {word}"

    def words(self, name: str, jobs: int) -> list[str]:
        """The words with which the prover checks a crate, over the libraries below it."""
        given = ["--crate-name", name, "src/main.rt" if name == PROGRAM else "src/lib.rt"]
        for other in ("std", *(it for it in self.listed()[name] if it not in self.listed())):
            given += ["--extern", f"{other}={self.kit}/rlibs/{other}.rlib"]
        for other in self.named_by(name):
            given += ["--extern", f"{other}={self.library(other)}"]
        for found_in in (f"{self.kit}/rlibs", *(os.path.dirname(self.library(it)) for it in self.below(name))):
            given += ["-L", f"dependency={found_in}"]
        given += ["--antt-project", f"{self.kit}/rattle/logic/antt-project.json"]
        given += ["--logic-built", f"{self.kit}/logic_built"]
        return [*given, "--jobs", str(min(processors(), jobs))]

    def kept(self, name: str) -> list[str]:
        """The words for what rt check has kept of a crate, if it has."""
        there = os.path.isdir(f"{self.folder(name)}/out/incremental")
        return ["--incremental", "out/incremental"] if there else []


def say(name: str, log: TextIO, printed: str) -> None:
    log.write(f"== {name}\n{printed}")
    log.flush()


def ran(folder: str, command: Iterable[str]) -> tuple[int, str]:
    """The status of a command in a folder, and what it printed."""
    done = subprocess.run([*command], cwd=folder, errors="replace", stdin=subprocess.DEVNULL, stdout=subprocess.PIPE,
                          stderr=subprocess.STDOUT, text=True)
    return done.returncode, done.stdout


def run(clone: Clone, name: str, log: TextIO, command: Iterable[str]) -> bool:
    """Runs a command in the folder of a crate, while no rt works there. Gives whether it went well."""
    held = os.open(clone.folder(name), os.O_RDONLY)
    fcntl.flock(held, fcntl.LOCK_EX)
    status, printed = ran(clone.folder(name), command)
    os.close(held)
    say(name, log, printed)
    return status == 0


# By the prover


def prove(clone: Clone, name: str, jobs: int, back: int, log: TextIO) -> bool:
    """Proves a crate and makes its library. Gives whether it is proved. The sum is that of the files before."""
    made_from, made = clone.sum_of(name), os.path.dirname(clone.library(name))
    shutil.rmtree(made, ignore_errors=True)
    os.makedirs(made)
    kind = clone.kept(name) or (["--statements"] if clone.knows("--statements") else [])
    prover = ["nice", "-n", str(back), f"{clone.kit}/bin/rattle", "build"]
    if not run(clone, name, log, [*prover, *clone.words(name, jobs), *kind, "-o", clone.library(name)]):
        return False
    with open(f"{made}/sum", "w", encoding="ascii") as file:
        file.write(made_from)
    return True


def shared_out(ready: list[str], free: int, behind: dict[str, int], most_behind: int) -> Iterator[tuple[str, int]]:
    """Which of the crates that are ready begin now, the urgent ones first, and with how many provers each."""
    for number, name in enumerate(ready):
        is_urgent = behind[name] >= URGENT * most_behind
        if free <= 0 and not is_urgent:
            return
        share = free // (len(ready) - number)
        jobs = min(MOST_PROVERS, max(URGENT_PROVERS if is_urgent else 1, share))
        free -= jobs
        yield name, jobs


def prove_all(clone: Clone, crates: list[str], log: TextIO) -> bool:
    """Proves all crates but the program. Gives whether all are proved."""
    behind, most = clone.work_behind(crates), places()
    done = {it for it in crates if it != PROGRAM and clone.is_made(it)}
    left = sorted(set(crates) - done - {PROGRAM}, key=lambda it: -behind[it])
    running: dict[Future[bool], tuple[str, int]] = {}
    with ThreadPoolExecutor(len(crates)) as pool:
        while left or running:
            ready = [it for it in left if done.issuperset(clone.named_by(it))]
            free = most - sum(jobs for _, jobs in running.values())
            most_behind = max(behind[it] for it in (*left, *(name for name, _ in running.values())))
            for name, jobs in shared_out(ready, free, behind, most_behind):
                left.remove(name)
                tell(len(crates) - len(left) - 1, len(crates), name)
                back = min(19, round(20 * (1 - behind[name] / max(behind.values()))))
                running[pool.submit(prove, clone, name, jobs, back, log)] = name, jobs
            for ended in wait(running, return_when=FIRST_COMPLETED).done:
                done.add(running.pop(ended)[0])
                if not ended.result():
                    return False
    return True


def make_program(clone: Clone, crates: list[str], log: TextIO) -> bool:
    """Proves and builds the program."""
    tell(len(crates), len(crates), PROGRAM)
    made, toolchain = f"out/{PROGRAM}.o", ["--toolchain", f"{clone.kit}/toolchain"]
    backend = ["--backend", "llvm"] if clone.knows("--backend") else []
    prover, linker = f"{clone.kit}/bin/rattle", f"{clone.kit}/bin/rattle-link"
    build = [prover, "build", *clone.words(PROGRAM, MOST_PROVERS), *toolchain, *backend, *clone.kept(PROGRAM)]
    link = [linker, "--target", "x86_64-unknown-linux-gnu", *toolchain, "-o", f"out/{PROGRAM}", made]
    c_code = (f"{clone.kit}/c/libos_c.a", f"{clone.kit}/c/liblibc_c.a")
    return run(clone, PROGRAM, log, [*build, "-o", made]) and run(clone, PROGRAM, log, [*link, *c_code])


# By rt


def make_by_rt(clone: Clone, crates: list[str], log: TextIO) -> bool:
    """Proves and builds all by rt's own commands, lowest first. The program is run once, without words: then it prints
    `words`. rt itself sees to it that no two runs work in one crate."""
    jobs = ["--jobs", str(min(MOST_PROVERS, places()))]
    for number, name in enumerate(crates, 1):
        tell(number, len(crates), name)
        status, printed = ran(clone.folder(name), [f"{clone.kit}/bin/rt", "run" if name == PROGRAM else "lib", *jobs])
        say(name, log, printed)
        if name != PROGRAM and status != 0:
            return False
    return os.access(clone.program(), os.X_OK) and "words" in printed.splitlines()[-3:]


def by_rt(clone: Clone, asked: str) -> str | None:
    """Why rt's own commands are to do the work, if they are."""
    if asked == "rt":
        return "BUILD_BY=rt"
    if asked != "prover" and clone.identity() not in KITS:
        return f"the kit is {clone.identity()}, with which this wasn't run before"
    return next(clone.lacks(), None)


def built(clone: Clone, log: TextIO, asked: str) -> bool:
    """Makes the program. Gives whether it is made, from what is there now."""
    crates = [*clone.below(PROGRAM), PROGRAM]
    made_from, reason = clone.sum_of(PROGRAM), by_rt(clone, asked)
    if reason:
        told(f"the program is proved and built first, by rt's own commands: {reason}")
        told(f"{len(crates)} crates, one after the other, which takes longer than 11 minutes")
        well = make_by_rt(clone, crates, log)
    else:
        told(f"the program is proved and built first: {len(crates)} crates, {places()} provers")
        told("on four idle processors that takes some 11 minutes")
        well = prove_all(clone, crates, log) and make_program(clone, crates, log)
    if well and Clone(clone.top, clone.kit).sum_of(PROGRAM) != made_from:
        os.remove(clone.program())
        told("a source has changed in the meantime: build again")
        return False
    return well


def main() -> int:
    top = os.path.dirname(os.path.dirname(os.path.dirname(os.path.realpath(__file__))))
    kit = os.path.dirname(os.path.dirname(os.path.realpath(shutil.which("rt") or "/opt/rattle/bin/rt")))
    asked, clone = os.environ.get("BUILD_BY", ""), Clone(top, kit)
    if asked not in ("", "rt", "prover"):
        told("build: BUILD_BY may be rt or prover")
        return 2
    os.makedirs(os.path.dirname(clone.log()), exist_ok=True)
    try:
        with open(clone.log(), "a", encoding="utf-8") as log:
            # A second build in this clone waits for the first.
            fcntl.flock(log, fcntl.LOCK_EX)
            log.truncate(0)
            return 0 if built(clone, log, asked) else 1
    except (OSError, KeyError) as fault:
        told(f"build: {fault}")
        return 1


if __name__ == "__main__":
    sys.exit(main())
