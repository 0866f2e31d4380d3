#!/usr/bin/env python3
"""Moves live loads along a structure: what it carries at each place where that can be least, and the least of all.

    tools/travel.py MODEL N [faces] [inset D] [X ..] [kN FORCE] [m LENGTH]
    tools/travel.py MODEL N,M[,..] [faces] [inset D] [X ..] [kN FORCE] [m LENGTH]
    tools/travel.py MODEL spread Y FORCE WIDTH SLOPE X .. [kN FORCE] [m LENGTH]

Nothing here is proved, but each factor has a certificate that `check` accepts. N is the number of a live load in the
file. With commas these loads move together, as axles do, at the distances that they have in the file. At each X the
load N acts on the free block whose top is uppermost there. All else stays as it is: the other live loads where they are
drawn, and the sway.

The places are the ends of the tops, each asked twice: with the load on the block to the left and on that to the right.
Of loads that move together each position counts at which one of them is at an end. A load on a fixed body, or beside
all bodies, has left the structure: it is left out there. Between two places next to one another each load stays on one
block, and its moment changes evenly; so forces that carry a factor at both, mixed, carry it between them. Loads that
slant act on the tops, and then each corner of a top is a place. Their heights there must be whole numbers.

With `faces` the loads move up and down along the faces from which they push, to the right or to the left: ice on a
pier, say. Then each X is a height, and the sides of a place are below and above it.

With `spread` a live load of FORCE downwards moves on the surface of a fill at the height Y, spread over WIDTH about X,
and by SLOPE to each side for each unit of depth, as by tools/earth.py fill, which has laid the fill itself in MODEL. It
is asked about at the places X alone: between two of them less may be carried, so take them close together. What falls
beside the structure is left out; `part P` behind the blocks says which part of the load falls on them. Live loads of
MODEL stay and rise with it: one that earth.py has spread there is one load more. Its parts are rounded as there, so
take a small unit of force.

With `inset D` each joint is shorter by D at each end, as in the model that `tools/variant.py inset MODEL D` prints; its
lines go to standard error. The loads stay at the places of MODEL, in its units.

    at X on BLOCK N/D = DECIMAL
    at X on BLOCK at X on BLOCK .. N/D = DECIMAL
    at X on BLOCK unlimited
    at X on BLOCK carried N/D = DECIMAL beyond N/D = DECIMAL
    least at X on BLOCK N/D = DECIMAL
    least of the given places at X on BLOCK N/D = DECIMAL

In place of `on BLOCK` stands `off` for a load that has left the structure. The program's `load` answers where it can,
and else tools/solve.py, which may find two shares between which the factor lies. `least with all on` is the least with
all loads on the structure, if that is another one. The last line is the least of all; in `least .. carried A beyond B`
A is carried at all places, and B isn't at some. If you give places, it is the least `of the given places`: elsewhere
the structure may carry less. Where a place has no answer, the least is `withheld`, and the status is 70; where the dead
loads collapse, it is 1.

With `kN FORCE` decimals are in kN, as for tools/read.py: what the loads N, M come to at the factor, all of them, also
those that have left the structure. With `m LENGTH` places are in metres. The first lines say so. Numbers X among the
words stay in units of the grid.
"""
import sys
import tempfile
from collections.abc import Callable, Iterator, Sequence
from dataclasses import dataclass, replace
from fractions import Fraction
from math import ceil, floor
from pathlib import Path
from typing import Protocol

from masonry import console, model as models, numbers, program
from masonry.console import Progress, Refused, Words
from masonry.fill import ALL, Spread, lay_part, pieces_under
from masonry.inset import Inset, inset
from masonry.lp.short_certificates import Tried
from masonry.model import Block, Load, Model
from masonry.numbers import decimal, nine_digits, ratio, whole
from masonry.open_faces import Laid, Piece, with_loads
from masonry.questions import results
from masonry.questions.case import Case, Known
from masonry.questions.results import Collapses, Loaded, Unlimited
from masonry.questions.voice import Silent
from masonry.statics import NotFound
from masonry.units import Given, Scale, Size, Units, scale_of, size_of, with_units

HALF = Fraction(1, 2)  # corners have whole coordinates, so nothing changes within half a unit beside one


# Tops


def height(block: Block, x: Fraction) -> Fraction | None:
    """The height of a body's top at x, if x lies within it."""
    ends = zip(block.corners, [*block.corners[1:], block.corners[0]])
    return max((b + (d - b) * (x - a) / (c - a) for (a, b), (c, d) in ends if a != c and min(a, c) <= x <= max(a, c)),
               default=None)


def uppermost(model: Model, x: Fraction) -> Block | None:
    """The body whose top is uppermost at x, which isn't the coordinate of a corner."""
    tops = [(top, number) for number, block in enumerate(model.blocks) if (top := height(block, x)) is not None]
    return model.blocks[max(tops)[1]] if tops else None


@dataclass(frozen=True)
class Seat:
    """Where a load acts: its x, and the block that it acts on, None where it has left the structure; and which part of
    it acts there."""
    x: int
    block: str | None
    part: float = 1.0

    def said(self, units: Units = Units()) -> str:
        at = self.x if units.length == 1 else units.long(self.x)
        part = "" if self.part == 1 else f" part {self.part:.4g}"
        return f"at {at} " + ("off" if self.block is None else f"on {self.block}{part}")


def seat(model: Model, x: int, side: Fraction) -> Seat:
    """The seat of a load at x that comes from one side or the other."""
    block = uppermost(model, x + side)
    return Seat(x, None if block is None or block.fixed else block.name)


# Places


def bends(model: Model, x: int) -> bool:
    """Whether a corner of a top that is uppermost lies there."""
    return any(at == x and height(block, Fraction(x)) == y
               for block in (uppermost(model, x - HALF), uppermost(model, x + HALF)) if block
               for at, y in block.corners)


@dataclass(frozen=True)
class Frame:
    """The axis along which loads move, 0 across and 1 up, and which way is outwards along the other one."""
    axis: int = 0
    out: int = 1

    def of(self, vector: models.Point) -> list[int]:
        """A vector of the model, along the axis and outwards."""
        return [vector[self.axis], self.out * vector[1 - self.axis]]

    def back(self, along: int, out: int) -> list[int]:
        return [along, self.out * out] if self.axis == 0 else [self.out * out, along]


class Group:
    """Live loads that move together, by the first of them, on tops, or on the faces from which they push; and the model
    with shorter joints, if it's to be that."""

    def __init__(self, model: Model, numbers: Sequence[int], made: Inset | None = None, faces: bool = False) -> None:
        for number in numbers:
            if not 1 <= number <= len(model.loads) or model.loads[number - 1].kind != "live":
                raise Refused(f"there is no live load {number}")
        self.model, self.numbers, self.made = model, [number - 1 for number in numbers], made
        pushes = {(model.loads[number].force[0] > 0) - (model.loads[number].force[0] < 0) for number in self.numbers}
        if faces and pushes not in ({1}, {-1}):
            raise Refused("loads that move along faces push all to the right, or all to the left")
        self.frame = frame = Frame(1, -1 if 1 in pushes else 1) if faces else Frame()
        # Seen so that the loads move from left to right, on tops.
        self.seen = replace(model, blocks=[replace(block, corners=[frame.of(at) for at in block.corners])
                                           for block in model.blocks])
        along = [frame.of(model.loads[number].at)[0] for number in self.numbers]
        self.ways = [one - along[0] for one in along]
        self.slants = any(frame.of(model.loads[number].force)[0] for number in self.numbers)

    def ends(self) -> Iterator[int]:
        """The places at which a load passes from one top to another, and, where loads slant, all corners of tops."""
        for x in sorted({at[0] for block in self.seen.blocks for at in block.corners}):
            changes = seat(self.seen, x, -HALF).block != seat(self.seen, x, HALF).block
            if changes or self.slants and bends(self.seen, x):
                yield x

    def places(self) -> list[int]:
        """Where the first load is while one of them is at an end."""
        return sorted({x - way for x in self.ends() for way in self.ways})

    def seats(self, x: int) -> list[tuple[Seat, ...]]:
        """Where the loads act with the first at x: coming from the left, and from the right, if that is different."""
        found = [tuple(seat(self.seen, x + way, side) for way in self.ways) for side in (-HALF, HALF)]
        return list(dict.fromkeys(found))

    def placed(self, seats: Sequence[Seat]) -> Model:
        """The model with the loads there."""
        loads: list[Load | None] = [*self.model.loads]
        for number, where in zip(self.numbers, seats):
            loads[number] = None if where.block is None else self.moved(self.model.loads[number], where)
        there = [load for load in loads if load is not None]
        return self.made.loaded(there) if self.made else replace(self.model, loads=there)

    def moved(self, load: Load, where: Seat) -> Load:
        """A load at its seat. The height of a load that acts straight down, or the place across of one that acts level,
        doesn't matter."""
        frame = self.frame
        if not frame.of(load.force)[0]:
            return replace(load, block=where.block, at=frame.back(where.x, frame.of(load.at)[1]))
        top = next(height(block, Fraction(where.x)) for block in self.seen.blocks if block.name == where.block)
        if top is None or top.denominator > 1:
            raise Refused(f"a load that slants would act {where.said()}, at a height that is no whole number")
        return replace(load, block=where.block, at=frame.back(where.x, int(top)))


class Moving(Protocol):
    """What moves: the places that count, where it acts with its first load at x, and the model with it there."""

    def places(self) -> list[int]: ...

    def seats(self, x: int) -> list[tuple[Seat, ...]]: ...

    def placed(self, seats: Sequence[Seat]) -> Model: ...


@dataclass(frozen=True)
class Spreading:
    """A load that a fill spreads, and the pieces of backs on which it can fall."""
    model: Model
    pieces: list[Piece]
    top: float
    load: Spread

    def laid(self, x: int) -> tuple[Laid, float]:
        """What of it falls on the structure with its middle at x, and which part of it that is."""
        laid = Laid()
        part = lay_part(laid, self.pieces, self.top, replace(self.load, x=float(x)))
        return laid, 1.0 if abs(part - 1) <= ALL else part

    def places(self) -> list[int]:
        raise Words("name the places X at which a load that is spread is to be asked about")

    def seats(self, x: int) -> list[tuple[Seat, ...]]:
        laid, part = self.laid(x)
        blocks = [block for (block, _, _), (_, down) in laid.sums.items() if down]
        return [(Seat(x, ",".join(dict.fromkeys(blocks)) if part > ALL else None, part),)]

    def placed(self, seats: Sequence[Seat]) -> Model:
        return with_loads(self.model, self.laid(seats[0].x)[0])[0]


def spreading(model: Model, words: Sequence[str]) -> Spreading:
    """What the words after `spread` say, but for the places."""
    least = [Fraction(-10**6), Fraction(1, 10**6), Fraction(0), Fraction(0)]
    top, force, width, slope = (float(decimal(word, called, limit, 10**9)) for word, called, limit in
                                zip(words, ("Y", "FORCE", "WIDTH", "SLOPE"), least))
    if width == slope == 0:
        raise Words("WIDTH and SLOPE can't both be 0")
    return Spreading(model, pieces_under(model, lambda _: top), top, Spread(force, 0.0, width, slope, "live"))


# Answers


@dataclass(frozen=True)
class Told:
    """In which units it is told where the loads are and what is carried: what a factor of 1 is in decimals."""
    units: Units = Units()
    size: Size = Size()


@dataclass(frozen=True)
class Place:
    """Where the loads are, and what is carried there; None where that wasn't found."""
    seats: tuple[Seat, ...]
    found: Loaded | None

    def said(self, told: Told = Told()) -> str:
        where = " ".join(one.said(told.units) for one in self.seats)
        return f"{where} {'no answer' if self.found is None else carries(self.found, told.size)}"

    def all_on(self) -> bool:
        return all(one.block and one.part == 1 for one in self.seats)

    def settled(self) -> bool:
        """Whether there are a factor that is carried and one that isn't, or no limit."""
        if isinstance(self.found, Unlimited):
            return True
        return self.found is not None and None not in (results.lower(self.found), results.upper(self.found))


def number(factor: Fraction, size: Size, rounded: str = "") -> str:
    """A fraction, and six digits of so many times it, or nine, rounded down or up where that is asked."""
    ways, value = {"carried": floor, "beyond": ceil}, size.of(factor)
    return f"{ratio(factor)} = {nine_digits(value, ways[rounded]) if rounded else numbers.number(value, 0)}"


def carries(found: Loaded, size: Size = Size()) -> str:
    """What is carried, in words."""
    if isinstance(found, Unlimited):
        return "unlimited"
    if isinstance(found, Collapses):
        return "collapses"
    low, high = results.lower(found), results.upper(found)
    if low is not None and low == high:
        return number(low, size)
    parts = [f"{word} {number(value, size, word)}" for word, value in (("carried", low), ("beyond", high))
             if value is not None]
    return " ".join(parts) or "no answer"


def least(places: Sequence[Place]) -> Place | None:
    """The place that carries least. If shares were found, its answer has the least that is carried at all places, and
    the least that isn't at some. None where all are unlimited."""
    limited = [one for one in places if one.found and not isinstance(one.found, Unlimited)]
    lows = [(low, k) for k, one in enumerate(limited) if one.found and (low := results.lower(one.found)) is not None]
    highs = [high for one in limited if one.found and (high := results.upper(one.found)) is not None]
    if not lows:
        return None
    low, k = min(lows)
    found = limited[k].found
    if low != min(highs):
        found = results.Shares(low, min(highs), None, True)
    return Place(limited[k].seats, found)


def asked_at(group: Moving, seats: tuple[Seat, ...], progress: Progress, known: Known) -> Place:
    with tempfile.TemporaryDirectory() as folder:
        name, cert = str(Path(folder, "model.toml")), str(Path(folder, "answer.cert"))
        models.write(name, group.placed(seats))
        where = " ".join(one.said() for one in seats)
        case = Case(name, cert, lambda stage: progress(f"{where}: {stage}"), Silent(), known=known)
        try:
            found: Loaded | None = case.settled_load()
        except NotFound:
            found = None
    return Place(seats, found)


def ends_of(places: Sequence[Place], of: str, told: Told) -> Iterator[str]:
    """The last lines: the least of these places, if each has an answer. If some were given, `of` says so."""
    unanswered = sum(not one.settled() for one in places)
    if any(isinstance(one.found, Collapses) for one in places):
        yield "least withheld: the dead loads collapse"
    elif unanswered:
        yield f"least withheld: {unanswered} of {len(places)} places have no answer"
    else:
        all_on = [one for one in places if one.all_on()]
        lines = [said_least(word + of, some, told) for word, some in (("with all on ", all_on), ("", places)) if some]
        if len(lines) == 2 and lines[0].removeprefix("least with all on ") == lines[1].removeprefix("least "):
            lines = lines[1:]
        yield from lines


def said_least(word: str, places: Sequence[Place], told: Told) -> str:
    place = least(places)
    return f"least {word}{'unlimited' if place is None else place.said(told)}"


def group_of(name: str, numbers: Sequence[int], shorter: Fraction | None, faces: bool) -> tuple[Group, str]:
    """The loads that move, and the table of contacts of the model on which they do."""
    table, model = program.answer("contacts", name), models.read(name)
    if shorter is None:
        return Group(model, numbers, None, faces), table
    made = inset(model, models.bearings_of(table), shorter)
    for line in made.lines:
        print(line, file=sys.stderr)
    with tempfile.TemporaryDirectory() as folder:
        short = str(Path(folder, "model.toml"))
        models.write(short, made.model)
        return Group(model, numbers, made, faces), program.answer("contacts", short)


def travel(words: list[str]) -> int:
    words, given_units = with_units(words, 2)
    if words[1:2] == ["spread"]:
        return travel_spread(words, given_units)
    faces = words[2:3] == ["faces"]
    words = words[:2] + words[3:] if faces else words
    is_inset = words[2:3] == ["inset"]
    if len(words) < (4 if is_inset else 2):
        raise Words("the form is MODEL N [faces] [inset D] [X ..] [kN FORCE] [m LENGTH]")
    loads = [whole(word, "N") for word in words[1].split(",")]
    if len(set(loads)) < len(loads):
        raise Words("a load is named twice")
    shorter = decimal(words[3], "D", Fraction(1, 10**6), models.COORDINATE) if is_inset else None
    given = [whole(word, "X", -models.COORDINATE, models.COORDINATE) for word in words[4 if is_inset else 2:]]
    with Progress("travel") as progress:
        group, table = group_of(words[0], loads, shorter, faces)
        known = Known(table, tried={of: Tried() for of in ("ray", "greatest", "carried")})
        told = told_of(group, given_units, scale_of(models.text_of(words[0])))
        for line in given_units.lines():
            print(line)
        return asked_along(group, given, told, lambda seats: asked_at(group, seats, progress, known))


def travel_spread(words: list[str], given: Given) -> int:
    """The same of a load that a fill spreads."""
    if len(words) < 7:
        raise Words("the form is MODEL spread Y FORCE WIDTH SLOPE X .. [kN FORCE] [m LENGTH]")
    places = [whole(word, "X", -models.COORDINATE, models.COORDINATE) for word in words[6:]]
    with Progress("travel") as progress:
        program.answer("contacts", words[0])
        moving, units = spreading(models.read(words[0]), words[2:6]), given.units(scale_of(models.text_of(words[0])))
        told = Told(units, Size(Fraction(moving.load.force) * units.force) if given.force else Size())
        for line in given.lines():
            print(line)
        status = asked_along(moving, places, told, lambda seats: asked_at(moving, seats, progress, Known()))
    if still := len(moving.model.live_loads()):
        print(f"travel: live loads of the model that stay where they are, and rise too: {still}", file=sys.stderr)
    return status


def told_of(group: Group, given: Given, scale: Scale) -> Told:
    """In which units the loads of a group are told, of which the words say these."""
    units = given.units(scale)
    loads = [group.model.loads[number] for number in group.numbers]
    return Told(units, size_of(loads, "the loads that move", units.force) if given.force else Size())


def asked_along(group: Moving, given: Sequence[int], told: Told, asked: Callable[[tuple[Seat, ...]], Place]) -> int:
    """Asks at the places that are given, or else at all, and prints what is found. Gives the status."""
    seats = [one for x in given or group.places() for one in group.seats(x)
             if given or any(where.block for where in one)]
    if not any(where.block for one in seats for where in one):
        raise Refused("at no place is a load on the structure")
    places: list[Place] = []
    for one in seats:
        if not any(where.block for where in one):
            print(*(where.said(told.units) for where in one))
            continue
        places.append(asked(one))
        print(places[-1].said(told), flush=True)
        if isinstance(places[-1].found, Collapses):
            break
    print(*ends_of(places, "of the given places " if given else "", told), sep="\n")
    if any(isinstance(one.found, Collapses) for one in places):
        return 1
    return 0 if all(one.settled() for one in places) else 70


def main(words: list[str]) -> int:
    return console.ran(travel, "travel", __doc__, words)


if __name__ == "__main__":
    sys.exit(main(sys.argv[1:]))
