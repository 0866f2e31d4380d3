"""Certificates in short whole numbers: forces and motions near given ones, made whole and of at most 127 bits.

Nothing here is proved: `check` judges what is found.
"""
from collections.abc import Callable, Iterator, Sequence
from contextlib import suppress
from dataclasses import dataclass
from fractions import Fraction
from functools import cached_property
from math import gcd, isqrt, lcm
from typing import TypeVar

from masonry.lp.lattice import Kind, Lattice, NoVector, Reduction, dot, squared
from masonry.lp.linear import Amounts, Opening
from masonry.numbers import lowest
from masonry.statics import Column, GREATEST, Motion, NotFound, Part, Structure

SMALL = 60  # so many vectors of a basis can be reduced all together
ROOM = 2**10  # for the sums of products that `check` adds up
FINE = 127  # bits of the fractions of given amounts that are used
FINER = FINE + 32  # and while they are added up
FEW = 40  # bits of a scale that mostly is enough
SHORT = 2**50  # where forces are below this, `check` has room for all its sums and products
MORE = 8  # bits by which other forces may need a greater scale
Made = TypeVar("Made")
Forces = tuple[int, list[Part]]  # a scale, and the whole parts of all bearings


def least(works: Callable[[int], Made | None], most: int = 127, likely: Callable[[], int] | None = None) -> Made | None:
    """What `works` gives at the least scale, a number of bits up to `most`, at which it gives something: about so,
    since a greater scale nearly always does where a lesser one does. None where it never does. `likely` is a function
    that says which scale that may be, after what was tried last. Without it, since most need few bits, the range isn't
    halved, but a quarter of it is tried."""
    low, high, found = -1, most, works(most)
    while found is not None and high - low > 1:
        middle = min(likely(), high - 1) if likely else low
        if middle <= low:
            middle = low + max(1, (high - low) // 4)
        other = works(middle)
        low, high, found = (middle, high, found) if other is None else (low, middle, other)
    return found


@dataclass
class Unknown:
    """A number of the lattice: what it is of each bearing that it stands for, and the amounts near which it is looked
    for, in units of 2^-FINER."""
    bearings: list[int]
    part: Part
    amounts: list[int]

    def amount(self) -> int:
        """In units of 2^-FINE."""
        return sum(self.amounts) >> FINER - FINE

    @cached_property
    def apart(self) -> int:
        """By how much the amount of the first bearing exceeds that of the second, in units of 2^-FINE."""
        first, second = self.amounts
        return first - second >> FINER - FINE


# By their kind and the bearings and parts of their unknowns; None where none is made.
Lattices = dict[tuple[Kind, tuple[tuple[tuple[int, ...], Part], ...]], Lattice | None]


def lattice_of(structure: Structure, found: Sequence[Unknown], kept: Lattices, kind: Kind = Kind.THOROUGH) -> Lattice:
    """The lattice of forces without a load, made once. A sparse one is made only if one was thinned: else it would be
    the same."""
    of = tuple((tuple(one.bearings), one.part) for one in found)
    thinned = kept.get((Kind.THINNED, of))
    if kind is Kind.SPARSE and not (thinned and thinned.dropped):
        raise NoVector
    if (kind, of) not in kept:
        columns = [structure.column(one.bearings[0], one.part) for one in found]
        try:
            kept[kind, of] = Lattice(columns, structure.blocks, kind)
        except NoVector:
            kept[kind, of] = None
    if (lattice := kept[kind, of]) is None:
        raise NoVector
    return lattice


class NoForces(NotFound):
    """There are no such forces of 127 bits at all."""


class Rounding:
    """Forces near given ones, as whole parts of bearings that carry a whole multiple of a load exactly.

    The unknowns of the lattice are the parts of the bearings that are in use, of each two numbers or, where it has one
    edge, one. What two bearings of a joint take along it has one line of action, and so it is one unknown, which is
    parted at the end. The lattice is that of the forces without a load: it does for all loads, and is kept. The scale
    is a multiple of the least at which any whole forces carry the load.
    """

    def __init__(self, structure: Structure, amounts: Amounts, load: Sequence[int], kept: Lattices | None = None,
                 kind: Kind = Kind.THOROUGH) -> None:
        self.structure = structure
        used: dict[int, list[Part]] = {}
        parts: dict[int, Part] = {}  # in units of 2^-FINER
        for k, amount in amounts.items():
            edge, fine = structure.edges[k], (amount.numerator << FINER) // amount.denominator
            used.setdefault(edge.bearing, []).append(edge.part)
            a, b = parts.get(edge.bearing, (0, 0))
            parts[edge.bearing] = a + edge.part[0] * fine, b + edge.part[1] * fine
        self.unknowns = list(unknowns(structure, used, parts))
        # The bearings with two edges; and the room of each part, and the given amounts, in units of 2^-FINE.
        self.wide = {number for number, of in used.items() if len(of) == 2}
        self.rooms = {number: self.room(number, part) >> FINER - FINE for number, part in parts.items()}
        self.fine = [one.amount() for one in self.unknowns]
        self.longest = max((abs(x) >> FINER for part in parts.values() for x in part), default=0).bit_length()
        self.load = {row: x for row, x in enumerate(load) if x}
        self.lattice = lattice_of(structure, self.unknowns, {} if kept is None else kept, kind)
        self.unit = abs(self.reaching()[-1])
        self.bits = 0  # the scale at which forces were found last
        self.multiple = 1  # how many times the least scale should do, after what was tried last

    def reaching(self) -> list[int]:
        """The least multiple of the load that whole forces carry: their unknowns, and the scale."""
        if not (found := self.lattice.reaching([self.load])):
            raise NoVector
        return found[0].unknowns(len(self.unknowns) + 1)

    def room(self, number: int, part: Part) -> int:
        """How far a part is inside its cone, in units of its own."""
        bearing, (a, b) = self.structure.bearings[number], part
        return bearing.p * a - bearing.q * abs(b) if number in self.wide else a

    def multiple_for(self, parts: Sequence[Part], scale: int) -> int:
        """How many times the least scale is enough for parts that are as far from the given ones as these at theirs:
        they would stay in their cones."""
        needed = max((((scale * room >> FINE) - self.room(number, parts[number]) << FINE) // room
                      for number, room in self.rooms.items() if room > 0), default=0)
        return max(0, needed) // self.unit + 1

    def near(self, scale: int, half: int) -> list[Part]:
        """Parts that carry the load so many times, near the given ones, which are rounded down after a half, in
        units of 2^-FINE, or 0 is added."""
        rest = {row: scale * x for row, x in self.load.items()}
        return self.parted(self.lattice.near([x * scale + half >> FINE for x in self.fine], rest), scale)

    def at(self, bits: int) -> Forces | None:
        """The scale and the parts of all bearings near 2^bits times the given ones, or None where they leave a cone or
        are too long."""
        found = self.of(self.unit << max(0, bits + 1 - self.unit.bit_length()))
        if found:
            self.bits = bits
        return found

    def of(self, scale: int) -> Forces | None:
        """The same at a multiple of the least scale, both divided by what divides all. A sparse lattice may not have
        what clears the sums there."""
        try:
            parts = self.near(scale, 1 << FINE - 1)
            if not self.structure.admits(parts):
                parts = self.near(scale, 0)
        except NoVector:
            return None
        self.multiple = self.multiple_for(parts, scale)
        if not self.structure.admits(parts):
            return None
        common = gcd(scale, *(x for part in parts for x in part))
        if max(scale, *(a for a, _ in parts), 0) > common * GREATEST:
            return None
        return scale // common, [(a // common, b // common) for a, b in parts]

    def parted(self, whole: Sequence[int], scale: int) -> list[Part]:
        """The parts of all bearings, of the values of the unknowns. What two bearings take along a joint is parted as
        the given amounts are, as far as their cones have room for it."""
        parts = [(0, 0)] * len(self.structure.bearings)
        for one, x in zip(self.unknowns, whole):
            (a, b), (first, *others) = one.part, one.bearings
            parts[first] = parts[first][0] + a * x, parts[first][1] + b * x
            for other in others:
                rooms = [max(0, parts[k][0] * self.structure.bearings[k].p // self.structure.bearings[k].q)
                         for k in (first, other)]
                mine = (x + (scale * one.apart >> FINE)) // 2
                mine = min(max(mine, -rooms[0], x - rooms[1]), rooms[0], x + rooms[1])
                parts[first], parts[other] = (parts[first][0], mine), (parts[other][0], x - mine)
        return parts

    def least(self) -> Forces:
        """The scale and the parts at the least scale that works."""
        first = self.unit.bit_length() - 1
        most = max(0, 124 - self.longest - first)

        def works(more: int) -> Forces | None:
            return self.at(first + more)

        def likely() -> int:
            return (self.multiple - 1).bit_length()

        found = least(works, min(FEW, most), likely) or least(works, most, likely)
        if found and self.unit * self.multiple < found[0]:
            found = self.of(self.unit * self.multiple) or found
        if found is None:
            if self.lattice.kind is Kind.THOROUGH and len(self.lattice.basis) < SMALL:
                self.refute()
            raise NotFound("no forces of 127 bits were found")
        return found

    def refute(self) -> None:
        """Raises `NoForces` where no whole forces of 127 bits carry a multiple of the load."""
        size = len(self.unknowns)
        vectors = [[*vector.unknowns(size), 0] for vector in self.lattice.basis]
        refute([*vectors, self.reaching()], [len(one.bearings) for one in self.unknowns])


def unknowns(structure: Structure, used: dict[int, list[Part]], parts: dict[int, Part]) -> Iterator[Unknown]:
    """The unknowns of the bearings in use, of each by the parts of its edges: first what presses or has one edge, and
    then what acts along joints."""
    along: dict[tuple[tuple[int, int], ...], list[int]] = {}
    for number, of in used.items():
        piece = (1, 0) if len(of) == 2 else of[0]
        yield Unknown([number], piece, [parts[number][0] // piece[0]])
        if len(of) == 2:
            along.setdefault(tuple(sorted(structure.column(number, (0, 1)).items())), []).append(number)
    for numbers in along.values():
        for k in range(0, len(numbers), 2):
            pair = numbers[k:k + 2]
            yield Unknown(pair, (0, 1), [parts[number][1] for number in pair])


def refute(vectors: list[list[int]], counts: Sequence[int], scales: int = 1) -> None:
    """Raises `NoForces` where a reduced basis shows that there are no forces of 127 bits with a first scale that isn't
    0. The last unknowns are the scales; of the others is said how many numbers each stands for the sum of.

    A vector that isn't a combination of the first few is at least as long as the least of the others' orthogonal
    parts, after Gram and Schmidt. The scale of forces isn't 0. So the first few may be those of the scale 0.
    """
    vectors.sort(key=squared)
    reduced = Reduction([[dot(u, v) for v in vectors] for u in vectors])
    of_scales = [dot(row, [one[len(counts)] for one in vectors]) for row in reduced.rows]
    squares = [reduced.d[k + 1] // reduced.d[k] for k in range(len(vectors))]
    first = next((k for k, scale in enumerate(of_scales) if scale), None)
    if first is None:
        raise NoForces("there are no whole forces: the scale of all that balance is 0")
    square = max(min(squares[k:]) for k in range(first + 1))
    number = isqrt(square // (squared(counts) + scales))  # the greatest of so many numbers is at least so great
    if number > GREATEST:
        raise NoForces(f"there are no forces of 127 bits: whole forces that balance need {number.bit_length()} or more")


def refute_all(structure: Structure, kept: Lattices) -> None:
    """Raises `NoForces` where no whole forces of 127 bits carry the dead loads together with any multiple of the live
    ones."""
    used: dict[int, list[Part]] = {}
    for edge in structure.edges:
        used.setdefault(edge.bearing, []).append(edge.part)
    if len(structure.edges) - len(structure.dead) > 2 * SMALL:
        return  # more vectors than are reduced all together
    found = list(unknowns(structure, used, dict.fromkeys(used, (0, 0))))
    lattice = lattice_of(structure, found, kept)
    loads = [{row: x for row, x in enumerate(load) if x} for load in (structure.dead, structure.live)]
    basis = [*lattice.basis, *lattice.reaching(loads)]
    if len(basis) <= SMALL:
        refute([vector.unknowns(len(found) + 2) for vector in basis], [len(one.bearings) for one in found], 2)


@dataclass
class Tried:
    """A scale that should do, since a little less was enough for other forces; None if there were none. It is tried
    first, and a lesser one isn't."""
    bits: int | None = None

    def forces(self, rounding: Rounding) -> Forces:
        """Those at this scale, or else at the least that works."""
        if self.bits is not None and (first := rounding.at(self.bits)):
            return first
        found = rounding.least()
        self.bits = rounding.bits + MORE
        return found


def exact_forces(structure: Structure, amounts: Amounts, times: int = 1) -> Forces | None:
    """A scale and the whole parts of all bearings that are exactly these amounts; None where they are too long. In the
    certificate the scale is multiplied, by so much at most."""
    scale = lcm(*(x.denominator for x in amounts.values()))
    parts = [(0, 0)] * len(structure.bearings)
    for k, amount in amounts.items():
        number, (a, b), x = structure.edges[k].bearing, structure.edges[k].part, int(amount * scale)
        parts[number] = parts[number][0] + a * x, parts[number][1] + b * x
    common = gcd(scale, *(x for part in parts for x in part))
    # `check` adds up products of these numbers with lengths, and refuses sums that are too wide.
    widest = max((abs(x) for edge in structure.edges for x in edge.column.values()), default=1)
    if max(scale * times, *(a for a, _ in parts), 0) * widest * ROOM > common * GREATEST:
        return None
    return scale // common, [(a // common, b // common) for a, b in parts]


def is_short(forces: Forces) -> bool:
    scale, parts = forces
    return max(scale, *(abs(x) for part in parts for x in part)) < SHORT


def short_forces(structure: Structure, amounts: Amounts, load: Sequence[int], tried: Tried | None = None,
                 kept: Lattices | None = None) -> Forces:
    """A scale and whole parts of all bearings, near given amounts, that carry the scale times a whole load. The
    lattices that are made are kept, by the unknowns, for structures with the same bearings. If a thinned lattice finds
    none, or long ones, a sparse one is made, then a quick one, and then a thorough one."""
    tried, kept = tried or Tried(), {} if kept is None else kept
    before = tried.bits
    for kind in Kind.THINNED, Kind.SPARSE, Kind.QUICK:
        with suppress(NoVector, NotFound, ArithmeticError):
            found = tried.forces(Rounding(structure, amounts, load, kept, kind))
            if is_short(found):
                return found
        tried.bits = before
    try:
        return tried.forces(Rounding(structure, amounts, load, kept))
    except NoVector:
        raise NotFound("no whole forces balance") from None


def short_motion(structure: Structure, motion: list[int], spread: Callable[[], Opening],
                 good: Callable[[Motion], bool], still: bool = False) -> list[int]:
    """Whole moves near a multiple of a motion that no bearing resists, and that are good. `spread` is a function that
    gives the structure's opening. With `still` the live loads do no work on the moves."""
    greatest = max(abs(x) for x in motion)
    if greatest < 2**40 and good(motion):
        return motion
    opened = spread()
    columns: list[Column] = [{} for _ in motion]
    for k in opened.still:
        for row, amount in structure.edges[k].column.items():
            columns[row][k] = amount
    groups = [[k] for k in opened.still]
    if still:
        for row, amount in enumerate(structure.live):
            if amount:
                columns[row][len(structure.edges)] = amount
        groups.append([len(structure.edges)])
    lattice = Lattice(columns, groups)

    def at(bits: int) -> list[int] | None:
        push = 2 ** (bits // 2) if opened.still else 1
        near = [round(Fraction(2**bits * x, greatest) + push * y) for x, y in zip(motion, opened.motion)]
        moves = lattice.near(near)
        return moves if any(moves) and good(moves) and not structure.resists(moves) else None

    found = least(at, 120)
    if found is None:
        raise NotFound("no short motion was found")
    return lowest(found)


# Lines of a certificate


def forces_lines(scale: int, factor: int, parts: Sequence[Part]) -> list[str]:
    return [f"forces {scale} {factor}", *(f"push {a} {b}" for a, b in parts)]


def motion_lines(motion: Motion) -> list[str]:
    moves = zip(motion[::3], motion[1::3], motion[2::3])
    return ["motion", *("move %d %d %d" % move for move in moves)]
