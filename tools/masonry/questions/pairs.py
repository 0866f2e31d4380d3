"""Two groups of live loads, or the sway, raised together: what is carried in a direction, and what bounds it.

Nothing here is proved. Where I and J are numbers of loads the program's `yield` answers, in all directions that it
takes. Else, and where it refuses, each direction is a model of its own: the program's `load` answers, or linear
programs do. Each answer has a certificate that `check` accepts.
"""
import re
import tempfile
from collections.abc import Iterable, Sequence
from dataclasses import dataclass, field, replace
from fractions import Fraction
from math import gcd
from pathlib import Path

from masonry import model as models, program
from masonry.console import Answer, Ended, Refused, Telling, shown
from masonry.model import Load, Model
from masonry.numbers import lowest as lowest_terms, whole
from masonry.questions import results
from masonry.questions.case import Case
from masonry.questions.results import Collapses, Greatest, Shares, Unlimited
from masonry.questions.voice import Silent
from masonry.statics import Motion, work
from masonry.units import size_of


YIELD, LINES = 1000, 64  # the greatest number of a direction that `yield` takes, and its most lines
SWAY = 1000  # the greatest number of a model's sway
WIDE = 7  # the status of numbers that are too wide

Direction = tuple[int, int]
At = tuple[Fraction, Fraction]
Half = tuple[int, int, int]
NOTHING: At = (Fraction(0), Fraction(0))  # no load at all


@dataclass
class Region:
    """What is known, seen from a start, which is carried: directions and half-planes are whole numbers in lowest terms,
    and points are fractions. `sides` bound the sector that is asked about."""
    points: dict[Direction, At] = field(default_factory=dict)
    unlimited: list[Direction] = field(default_factory=list)
    refused: dict[Direction, str] = field(default_factory=dict)
    halves: list[Half] = field(default_factory=list)
    start: At = NOTHING
    sides: list[Half] = field(default_factory=list)

    def asked(self) -> set[Direction]:
        return {lowest(one) for one in (*self.points, *self.unlimited, *self.refused)}

    def bounded(self, half: Half) -> None:
        """Takes in a half-plane, seen from no load at all."""
        if (seen := moved(half, self.start, -1)) not in self.halves:
            self.halves.append(seen)

    def bounds(self) -> list[Half]:
        return [*self.halves, *self.sides]


def moved(half: Half, start: At, sign: int) -> Half:
    """A half-plane seen from a start (-1), or again from no load at all (1), in lowest terms."""
    p, q, r = lowest_terms([half[0], half[1], half[2] + sign * (half[0] * start[0] + half[1] * start[1])])
    return p, q, r


def lowest(direction: Direction) -> Direction:
    """A direction in lowest terms."""
    common = gcd(*direction) or 1
    return direction[0] // common, direction[1] // common


# Groups


@dataclass(frozen=True)
class Group:
    """The words of a group, the numbers of its loads, counted from 0, and whether the sway is one of them."""
    words: str
    numbers: tuple[int, ...]
    sways: bool

    def alone(self) -> bool:
        """Whether it is one load."""
        return len(self.numbers) == 1 and not self.sways

    def of(self, model: Model) -> list[Load]:
        return [model.loads[number] for number in self.numbers]

    def live(self, model: Model) -> list[int]:
        """The loads of the group alone, by rows, in sixths."""
        only = replace(model, loads=self.of(model), sway=model.sway if self.sways else None)
        return [amount for _, live in models.wrenches(only).values() for amount in live]

    def size(self, model: Model) -> float:
        """The size of the sum of its loads, or 1 of the sway, of which the factor is a share."""
        if self.sways:
            return 1.0
        return float(size_of(self.of(model), f"the loads {self.words}").of(Fraction(1)))


def group_of(model: Model, words: str) -> Group:
    """The group of words such as 3, 3,5 and 4,sway."""
    parts = words.split(",")
    numbers = tuple(whole(word, "the number of a load", 1) - 1 for word in parts if word != "sway")
    sways = len(numbers) < len(parts)
    for number in numbers:
        if number >= len(model.loads) or model.loads[number].kind != "live":
            raise Refused(f"there is no live load {number + 1}")
    if sways and not any(model.sway or ()):
        raise Refused("the model has no sway")
    if len(set(numbers)) + sways < len(parts):
        raise Refused(f"{shown(words)} names one load twice")
    return Group(words, numbers, sways)


@dataclass(frozen=True)
class Pair:
    """A model's two groups, I and J, which have no load in common; and a model without live loads, in which the factors
    of a start are dead, with what its forces are multiplied by."""
    name: str
    model: Model
    one: Group
    other: Group
    base: Model
    times: int = 1

    def directed(self, direction: Direction) -> Model:
        """The model of a direction. Its live loads are those of I times its first number, and of J times its second."""
        (m, n), model = direction, self.model
        forces = [(load.block, load.at, load.times(self.times * times).force)
                  for group, times in ((self.one, m), (self.other, n)) for load in group.of(model) if times]
        times = m * self.one.sways + n * self.other.sways
        sway = [times * part for part in model.sway or (0, 0)]
        if any(abs(part) > SWAY for part in sway):
            raise Refused(f"a sway beyond {SWAY}")
        loads = [*self.base.loads, *models.listed(forces, "live")]
        if len(loads) > models.LOADS:
            raise Refused(f"more than {models.LOADS} loads")
        return replace(self.base, version=model.version, loads=loads, sway=sway if any(sway) else None)

    def started(self, start: At) -> "Pair":
        """The pair in whose models these factors are dead."""
        if not any(start):
            return self
        m, n, d = lowest_terms([*start, Fraction(1)])
        made = models.share(self.directed((m, n)), 1, d)
        return replace(self, base=made, times=models.multiple(self.model, made, d))

    def half(self, motion: Motion) -> Half:
        """The half-plane of a motion that no bearing resists."""
        dead = [amount for dead, _ in models.wrenches(self.model).values() for amount in dead]
        works = [work(load, motion) for load in (self.one.live(self.model), self.other.live(self.model), dead)]
        return int(works[0]), int(works[1]), -int(works[2])


def pair_of(name: str, i: str, j: str) -> Pair:
    program.answer("contacts", name)
    model = models.read(name)
    one, other = group_of(model, i), group_of(model, j)
    if set(one.numbers) & set(other.numbers) or one.sways and other.sways:
        raise Refused(f"{shown(i)} and {shown(j)} have a load in common")
    return Pair(name, model, one, other, replace(model, loads=model.dead_loads(), sway=None))


# Directions


def directions_of(name: str) -> list[Direction] | None:
    """The directions of a file; None where a line is none."""
    found = []
    for line in models.text_of(name).splitlines(keepends=True):
        if not re.fullmatch(r"dir (0|-?[1-9]\d{0,30}) (0|-?[1-9]\d{0,30})\n", line, re.ASCII):
            return None
        m, n = map(int, line.split()[1:])
        if m == n == 0:
            return None
        found.append((m, n))
    return found or None


def region_of(name: str, i: str, j: str, dirs: str, progress: Telling, start: At = NOTHING,
              sector: bool = False) -> Region:
    """The region in the directions of a file, seen from a start; with a sector where both factors are from 0 up."""
    directions, region = directions_of(dirs), Region(start=start)
    if sector:
        region.sides = [moved(side, start, -1) for side in ((-1, 0, 0), (0, -1, 0))]
    if directions is None:
        if is_of_loads(i, j):
            program.answer("yield", name, i, j, dirs)
        raise Refused(f"{dirs}: each line must be `dir M N` with whole numbers, not both 0, and its line feed")
    extend(region, (name, i, j), directions, progress)
    return region


def is_of_loads(i: str, j: str) -> bool:
    """Whether both are numbers of loads, so that the program's `yield` answers."""
    return not (i + j).count(",") and "sway" not in (i, j)


def extend(region: Region, words: tuple[str, str, str], directions: Sequence[Direction], progress: Telling) -> None:
    """Asks in more directions. What is known stays, and isn't asked again."""
    order = {direction: number for number, direction in enumerate([*region.points, *region.unlimited, *directions])}
    can = [one for one in directions if max(abs(one[0]), abs(one[1])) <= YIELD][:LINES]
    taken = can if is_of_loads(*words[1:]) and not any(region.start) else []
    wide = yielded(region, words, taken) if taken else {}
    rest = {**{one: "" for one in directions if one not in taken}, **wide}
    if rest:
        pair = pair_of(*words).started(region.start)
        for direction, reason in rest.items():
            progress(f"the direction {direction[0]} {direction[1]}")
            settled(region, pair, direction, reason)
        region.points = dict(sorted(region.points.items(), key=lambda item: order[item[0]]))
        region.unlimited.sort(key=lambda direction: order[direction])


def yielded(region: Region, words: tuple[str, str, str], directions: Sequence[Direction]) -> dict[Direction, str]:
    """What the program's `yield` says; what is given are the directions that it refuses, each with the reason."""
    wide: dict[Direction, str] = {}
    left = list(dict.fromkeys(directions))
    while left:
        done = asked(words, left)
        if done.status == WIDE and done.error.startswith("wide dir "):
            _, _, number, *reason = done.error.split()
            wide[left.pop(int(number) - 1)] = " ".join(["wide", *reason])
        elif done.status:
            raise Ended(done)
        else:
            listed(region, done.output.splitlines())
            break
    return wide


def asked(words: tuple[str, str, str], directions: Iterable[Direction]) -> Answer:
    with tempfile.TemporaryDirectory() as folder:
        name = Path(folder, "directions")
        models.put(name, "".join(f"dir {m} {n}\n" for m, n in directions))
        return program.run("yield", *words, name)


def listed(region: Region, lines: Iterable[str]) -> None:
    """Takes in an answer of `yield`."""
    for line in lines:
        head, *items = line.split()
        if head == "dir":
            direction = int(items[0]), int(items[1])
            if items[2] == "unlimited":
                region.unlimited.append(direction)
            else:
                region.points[direction] = Fraction(items[3]), Fraction(items[4])
        elif head == "half":
            region.bounded((int(items[0]), int(items[1]), int(items[2])))


def settled(region: Region, pair: Pair, direction: Direction, reason: str) -> None:
    """Asks about a direction by a model of its own. `reason` says why the program's `yield` refuses it, if it does."""
    try:
        with tempfile.TemporaryDirectory() as folder:
            name = str(Path(folder, "model.toml"))
            models.write(name, pair.directed(direction))
            found = Case(name, str(Path(folder, "answer.cert")), voice=Silent()).settled_load()
    except Refused as fault:
        region.refused[direction] = reason or str(fault)
        return
    if isinstance(found, Collapses):
        raise Ended(Answer(1, "collapses\n", ""))
    if isinstance(found, Unlimited):
        region.unlimited.append(direction)
        return
    carried = results.lower(found)
    if carried is None:
        region.refused[direction] = reason or "no share that is carried was found"
    else:
        region.points[direction] = direction[0] * carried, direction[1] * carried
    if isinstance(found, (Greatest, Shares)) and found.motion is not None:
        region.bounded(pair.half(found.motion))
