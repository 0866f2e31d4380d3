"""Whether any joint can slide: over all pressing forces that balance the loads, whatever the friction.

Nothing here is proved. Each linear program is solved by esolver and closed by dual numbers that are checked in
fractions.

Where in all such forces, at each factor from 0 to the collapse load factor, each joint has |T| < mu*N, no joint can
begin to slide in any state at rest. Then it doesn't matter that the model lifts what slides, and the factor is no mere
upper bound. A joint that carries nothing, with N = 0 and T = 0, doesn't meet this: it may move freely.
"""
import tempfile
from collections.abc import Iterator
from dataclasses import dataclass
from fractions import Fraction
from itertools import islice
from math import hypot
from pathlib import Path

from masonry import numbers
from masonry.console import Telling
from masonry.lp.programs import Exact, Found, Lacking, Program, Row, Sign
from masonry.numbers import ratio
from masonry.questions import results, voice
from masonry.questions.case import Case
from masonry.questions.results import Collapses, Stands, Unlimited
from masonry.statics import NotFound, Structure
from masonry.units import Size


@dataclass(frozen=True)
class Thrust:
    """What a joint bears: its normal and its tangential force, and how far the thrust is along it, from the first
    bearing to the second."""
    first: str
    second: str
    n: float
    t: float
    way: float | None

    def bears(self, said: "Said") -> str:
        return f"N {self.n * said.force:.6g} T {self.t * said.force:.6g}"

    def said(self, said: "Said") -> str:
        bears = self.bears(said) if self.n or self.t else "bears nothing"
        return f"joint {self.first} {self.second} {bears}" + ("" if self.way is None else f" way {self.way:.6g}")


@dataclass(frozen=True)
class Slide:
    """A joint that can slide, between which factors, and what it and all others bear at the least of these. The
    greatest is None where there is none."""
    joint: int
    least: Fraction
    greatest: Fraction | None
    thrusts: list[Thrust]

    def said(self, said: "Said") -> str:
        own = self.thrusts[self.joint]
        how = "slide" if own.n or own.t else "carry nothing, and so slide,"
        until = "on" if self.greatest is None else f"to {said.number(self.greatest)}"
        bears = f", with {own.bears(said)}" if own.n or own.t else ""
        return f"joint {own.first} {own.second} can {how} from {said.number(self.least)} {until}{bears}"


@dataclass(frozen=True)
class Said:
    """What is said for a force of 1, and in decimals for a factor of 1."""
    force: float = 1.0
    factor: Size = Size()

    def number(self, factor: Fraction) -> str:
        return f"{ratio(factor)} = {numbers.number(self.factor.of(factor), 0)}"


class Pressing:
    """All pressing forces that balance the loads, at factors of the live loads from 0 to a greatest one, if there is
    one: an unknown n for each bearing, an s for each joint and t for the factor."""

    def __init__(self, structure: Structure, top: Fraction | None) -> None:
        self.structure, self.joints = structure, list(structure.joints().items())
        terms: list[dict[str, int]] = [{"t": amount} if amount else {} for amount in structure.live]
        for k in range(len(structure.bearings)):
            for row, amount in structure.column(k, (1, 0)).items():
                terms[row][f"n{k}"] = amount
        for j, (_, numbers) in enumerate(self.joints):
            for row, amount in structure.column(numbers[0], (0, 1)).items():
                terms[row][f"s{j}"] = amount
        self.rows = [Row(one, Sign.EQUAL, -right) for one, right in zip(terms, structure.dead)]
        self.bounds: dict[str, tuple[Exact, Exact]] = {} if top is None else {"t": (0, top)}
        self.free = [f"s{j}" for j in range(len(self.joints))]

    def program(self, goal: dict[str, int], more: list[Row]) -> Program:
        return Program(goal, [*self.rows, *more], self.bounds, self.free)

    def excess(self, j: int, sign: int) -> dict[str, int]:
        """How far T, or its opposite, exceeds the friction of a joint, times q and in units of its tangent."""
        bearing = self.structure.bearings[self.joints[j][1][0]]
        return {f"s{j}": sign * bearing.q, **{f"n{k}": -bearing.p for k in self.joints[j][1] if bearing.p}}

    def slide(self, j: int, sign: int) -> Slide | None:
        """Between which factors a joint can slide to one side; None where it can't."""
        excess = self.excess(j, sign)
        most = self.program(excess, []).closed()
        if most is Lacking.VALUES:
            raise NotFound("no pressing forces balance the loads")
        if isinstance(most, Found) and sum(amount * most.value(name) for name, amount in excess.items()) < 0:
            return None
        slides = [Row(excess, Sign.LEAST, 0)]
        first, last = (self.program({"t": way}, slides).closed() for way in (-1, 1))
        if not isinstance(first, Found):
            raise NotFound("no least factor at which a joint slides was found")
        greatest = last.value("t") if isinstance(last, Found) else None
        return Slide(j, first.value("t"), greatest, [self.thrust(number, first) for number in range(len(self.joints))])

    def thrust(self, j: int, found: Found) -> Thrust:
        (first, second), numbers = self.joints[j]
        size = hypot(*self.structure.bearings[numbers[0]].tangent) / 6
        presses = [found.value(f"n{k}") for k in numbers]
        total = sum(presses, Fraction(0))
        way = float(presses[1] / total) if len(numbers) == 2 and total else None
        return Thrust(first, second, float(total) * size, float(found.value(f"s{j}")) * size, way)

    def suspects(self) -> list[int]:
        """The joints, those first that are nearest to a slide in some forces that balance the loads: with the least of
        p*N - q*T for both ways, for the length of their tangents."""
        found = self.program({}, []).best()
        if not isinstance(found, Found):
            return [*range(len(self.joints))]
        rooms = []
        for j, (_, numbers) in enumerate(self.joints):
            bearing = self.structure.bearings[numbers[0]]
            press = bearing.p * sum(found.value(f"n{k}") for k in numbers)
            rooms.append(float(press - bearing.q * abs(found.value(f"s{j}"))) * hypot(*bearing.tangent) / bearing.q)
        return sorted(range(len(self.joints)), key=lambda j: rooms[j])

    def slides(self, progress: Telling) -> Iterator[Slide]:
        for count, j in enumerate(self.suspects(), 1):
            (first, second), _ = self.joints[j]
            progress(f"the joint of {first} and {second}, {count} of {len(self.joints)}")
            for sign in 1, -1:
                if found := self.slide(j, sign):
                    yield found


def reach(case: Case) -> tuple[bool, Fraction | None]:
    """Whether the dead loads are carried, and the collapse load factor or a share above it, None if there is none."""
    if not case.model.has_live():
        return isinstance(case.settled_stand(), Stands), Fraction(0)
    found = case.settled_load()
    if isinstance(found, (Collapses, Unlimited)):
        return isinstance(found, Unlimited), None
    top = results.upper(found)
    if top is None:
        raise NotFound("the collapse load factor wasn't found")
    return True, top


def slides(name: str, wanted: Fraction | None, every: bool, progress: Telling, said: Said = Said()) -> None:
    """Asks about a model, up to a factor, or up to its collapse load factor: until one joint is found that can slide,
    or about every joint."""
    with tempfile.TemporaryDirectory() as folder:
        case = Case(name, str(Path(folder, "answer.cert")), progress, voice.Plain(said.factor))
        structure = case.structure
        stands, top = reach(case)
    if not stands:
        return
    if wanted is not None:
        top = wanted if top is None else min(top, wanted)
    sliding = Pressing(structure, top).slides(progress)
    found = sorted(sliding if every else islice(sliding, 1), key=lambda one: one.joint)
    for one in found:
        print(one.said(said))
    until = "at any factor from 0 on" if top is None else f"from 0 to {said.number(top)}"
    if not found:
        print(f"no joint can slide {until}")
        return
    first = min(found, key=lambda one: one.least)
    print(f"forces at {said.number(first.least)}")
    for thrust in first.thrusts:
        print(thrust.said(said))
    if not every:
        print("one joint is enough: the factor is an upper bound alone. Others may slide sooner: `all` asks about each")
