"""Linear programs, solved in exact fractions by `esolver` (QSopt_ex, Debian's package qsopt-ex).

Nothing here is proved, and nothing is about masonry. esolver calls some programs UNDEFINED; then it is asked again in
other ways.
"""
import shutil
import tempfile
from collections.abc import Iterable, Mapping
from dataclasses import dataclass, field
from enum import Enum
from fractions import Fraction
from pathlib import Path

from masonry import time_limit
from masonry.console import Refused


# Words for esolver: its own choice first, then other rules of pricing, and no scaling.
WAYS: tuple[list[str], ...] = [], ["-p", "2"], ["-d", "7"], ["-S"], ["-d", "6", "-S"]
MISSING = "esolver isn't installed: as root, apt-get update && apt-get install qsopt-ex"

Exact = int | Fraction


class NoAnswer(Refused):
    """esolver isn't there, or has no answer."""


class Sign(Enum):
    """How the sum of a row compares with the number on its right."""
    EQUAL = "="
    MOST = "<="
    LEAST = ">="


@dataclass
class Row:
    """The terms, a dictionary from unknowns to whole numbers; =, <= or >=; and the whole number on the right."""
    terms: dict[str, int]
    sign: Sign
    right: int

    def holds(self, left: Exact) -> bool:
        if self.sign is Sign.EQUAL:
            return left == self.right
        return left <= self.right if self.sign is Sign.MOST else left >= self.right


@dataclass
class Found:
    """The values of the unknowns other than 0, by name, and the dual values of the rows, in order."""
    values: dict[str, Fraction]
    duals: list[Fraction]

    def value(self, name: str) -> Fraction:
        return self.values.get(name, Fraction(0))


class Lacking(Enum):
    """Why a program has no greatest value: no values at all, or values without end."""
    VALUES = "INFEASIBLE"
    LIMIT = "UNBOUNDED"


@dataclass
class Program:
    """Unknowns are from 0 up where no bounds, a least and a greatest value, are given, and they aren't free."""
    goal: dict[str, int]  # whose sum is to be greatest
    rows: list[Row]
    bounds: Mapping[str, tuple[Exact, Exact]] = field(default_factory=dict)
    free: Iterable[str] = ()

    def text(self) -> str:
        rows = [*self.rows, Row({"one": 1}, Sign.EQUAL, 1)]  # esolver takes no program without rows
        used = set(self.goal) | {name for row in rows for name, amount in row.terms.items() if amount}
        lines = ["Maximize", "obj:", *terms(self.goal), "Subject To"]
        for number, row in enumerate(rows):
            if listed := terms(row.terms):
                lines += [f"r{number}:", *listed, f"{row.sign.value} {row.right}"]
        lines.append("Bounds")
        lines += [f"{low} <= {name} <= {high}" for name, (low, high) in self.bounds.items() if name in used]
        lines += [f"{name} free" for name in self.free if name in used]
        return "\n".join([*lines, "End", ""])

    def impossible(self) -> bool:
        """Whether a row without terms already says that there are no values."""
        return any(not any(row.terms.values()) and not row.holds(0) for row in self.rows)

    def best(self) -> Found | Lacking:
        """The values where the sum is greatest."""
        if self.impossible():
            return Lacking.VALUES
        status = ""
        for way in WAYS:
            said = asked(self.text(), way)
            status = said[0].split()[-1]
            if status == "OPTIMAL":
                return self.read(said[1:])
            if status in ("INFEASIBLE", "UNBOUNDED"):
                return Lacking(status)
        raise NoAnswer(f"esolver says {status}")

    def reached(self) -> Found:
        """The values where the sum is greatest, of a program that has such."""
        found = self.best()
        if isinstance(found, Lacking):
            raise NoAnswer(f"esolver says {found.value}")
        return found

    def read(self, lines: list[str]) -> Found:
        part: dict[str, Fraction] | None = None
        values: dict[str, Fraction] = {}
        duals: dict[str, Fraction] = {}
        for line in lines:
            if line.endswith(":"):
                part = {"VARS:": values, "PI:": duals}.get(line)
            elif part is not None:
                name, value = line.split(" = ")
                part[name] = Fraction(value)
        return Found(values, [duals.get(f"r{number}", Fraction(0)) for number in range(len(self.rows))])

    # What closes a program: worked out here, in fractions, whatever esolver says.

    def meets(self, found: Found) -> bool:
        """Whether values keep to all rows and bounds."""
        free = set(self.free)
        for name, value in found.values.items():
            low, high = self.bounds.get(name, (0, None))
            if name not in free and (value < low or high is not None and value > high):
                return False
        if any(found.value(name) < low for name, (low, _) in self.bounds.items()):
            return False
        return all(row.holds(sum(amount * found.value(name) for name, amount in row.terms.items()))
                   for row in self.rows)

    def limit(self, duals: list[Fraction]) -> Fraction | None:
        """A number that the sum doesn't exceed, shown by dual values of the rows; None where they show none.

        The sum is that of the rows, each times its dual value, and of what is left of each unknown.
        """
        left: dict[str, Exact] = dict(self.goal)
        most = Fraction(0)
        for row, dual in zip(self.rows, duals):
            if row.sign is Sign.MOST and dual < 0 or row.sign is Sign.LEAST and dual > 0:
                return None
            most += dual * row.right
            for name, amount in row.terms.items() if dual else ():
                left[name] = left.get(name, 0) - dual * amount
        free = set(self.free)
        for name, rest in left.items():
            low, high = self.bounds.get(name, (0, None))
            if rest and name in free or rest > 0 and high is None:
                return None
            most += rest * (low if rest < 0 else high or 0)
        return most

    def closed(self) -> Found | Lacking:
        """The values where the sum is greatest, and dual values that show it, both worked out again here."""
        found = self.best()
        if isinstance(found, Found):
            worth = sum(amount * found.value(name) for name, amount in self.goal.items())
            if not self.meets(found) or self.limit(found.duals) != worth:
                raise NoAnswer("the dual values of a linear program don't close it")
        return found


def terms(row: Mapping[str, int]) -> list[str]:
    """A row's terms, each for a line of its own."""
    return [f"{'-' if amount < 0 else '+'} {abs(amount)} {name}" for name, amount in row.items() if amount]


def asked(text: str, way: list[str]) -> list[str]:
    """The lines of esolver's answer to a program in the format of LP files."""
    with tempfile.TemporaryDirectory() as folder:
        Path(folder, "problem.lp").write_text(text)
        try:
            time_limit.run(["esolver", *way, "-L", "-O", "answer", "problem.lp"], folder)
        except OSError as fault:
            raise NoAnswer(f"esolver: {fault.strerror or fault}" if shutil.which("esolver") else MISSING) from None
        answer = Path(folder, "answer")
        return answer.read_text().splitlines() if answer.exists() else ["status nothing"]
