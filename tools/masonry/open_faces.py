"""What of a structure lies open, to the left or upwards, and how forces that act there become loads of its model.

Nothing here is proved. Places are exact fractions. A force is given in decimals, and becomes loads in whole numbers at
whole points.
"""
from collections.abc import Callable, Sequence
from dataclasses import dataclass, field, replace
from enum import Enum
from fractions import Fraction
from math import floor

from masonry.console import Refused
from masonry.model import Block, FORCE, LOADS, Load, Model, Point, WEIGHT, heavier, sum_of, twice_area
from masonry.numbers import number
from masonry.units import Scale

Place = tuple[Fraction, Fraction]
Force = tuple[float, float]
ROUNDED = 0.002  # how much rounding may change the forces of a kind, as a part of their sum
TIMES = [int(step + "0" * power) for power in range(7) for step in "125"]  # by what forces may be multiplied
KINDS = "dead", "live"


class Side(Enum):
    """Where an edge faces. The value is the axis along which other bodies hide it."""
    UP = 0
    LEFT = 1


@dataclass(frozen=True)
class Piece:
    """A part of an edge of a free block that lies open; its start is the upper end of one that faces left, and the
    right end of one that faces up."""
    block: str
    start: Place
    end: Place

    def middle(self) -> Place:
        return (self.start[0] + self.end[0]) / 2, (self.start[1] + self.end[1]) / 2


def around(block: Block) -> list[tuple[int, int]]:
    """The corners of a block, counter-clockwise."""
    corners = [(x, y) for x, y in block.corners]
    return corners if twice_area(corners) > 0 else corners[::-1]


def minus(one: Point, two: Point) -> tuple[int, int]:
    return one[0] - two[0], one[1] - two[1]


def cross(one: Point, two: Point) -> int:
    return one[0] * two[1] - one[1] * two[0]


def is_convex(corners: Sequence[Point]) -> bool:
    """Whether the corners are those of a strictly convex outline, in order, either way round."""
    sign = 1 if twice_area(corners) > 0 else -1
    return all(sign * cross(minus(two, one), minus(other, one)) > 0
               for one, two in zip(corners, [*corners[1:], corners[0]]) for other in corners
               if other not in (one, two)) and len({(x, y) for x, y in corners}) == len(corners)


def overlap(one: Sequence[Point], other: Sequence[Point]) -> bool:
    """Whether two convex outlines overlap: no edge of either has all of the other one outside it, or on it."""
    for first, second in (one, other), (other, one):
        sign = 1 if twice_area(first) > 0 else -1
        for a, b in zip(first, [*first[1:], first[0]]):
            if all(sign * cross(minus(b, a), minus(corner, a)) <= 0 for corner in second):
                return False
    return True


def edges(block: Block) -> list[tuple[tuple[int, int], tuple[int, int]]]:
    corners = around(block)
    return list(zip(corners, corners[1:] + corners[:1]))


def across(block: Block, axis: int, at: Fraction) -> tuple[Fraction, Fraction]:
    """From where to where a body reaches along the other axis, at a place of this axis that it covers."""
    found = []
    for a, b in edges(block):
        low, high = sorted((a, b), key=lambda corner: corner[axis])
        if low[axis] <= at <= high[axis] and low[axis] != high[axis]:
            found.append(low[1 - axis] + Fraction(high[1 - axis] - low[1 - axis]) * (at - low[axis])
                         / (high[axis] - low[axis]))
    return min(found), max(found)


def hides(other: Block, start: Place, end: Place, side: Side) -> tuple[Fraction, Fraction] | None:
    """From where to where another body hides an edge, if it does."""
    axis = side.value
    places = [Fraction(corner[axis]) for corner in other.corners]
    low = max(min(places), min(start[axis], end[axis]))
    high = min(max(places), max(start[axis], end[axis]))
    if low >= high:
        return None
    at = (low + high) / 2
    here = start[1 - axis] + (end[1 - axis] - start[1 - axis]) * (at - start[axis]) / (end[axis] - start[axis])
    first, last = across(other, axis, at)
    beyond = first + last > 2 * here if side is Side.UP else first + last < 2 * here
    return (low, high) if beyond else None


Span = tuple[Fraction, Fraction]


def left_over(low: Fraction, high: Fraction, hidden: list[Span]) -> list[Span]:
    """The parts of an interval outside all of these."""
    found, start = [], low
    for first, last in sorted(hidden):
        if first > start:
            found.append((start, first))
        start = max(start, last)
    return found + ([(start, high)] if start < high else [])


Passed = Callable[[Place, Place], bool]


def open_pieces(model: Model, side: Side, any_slope: bool = False, passed: Passed = lambda *_: False) -> list[Piece]:
    """The parts of edges of free blocks that face this side, with no body beyond them; of edges that face it more than
    the other side, if they may not have any slope. A body hides no part of an edge of which `passed` says so: it gets
    both ends of what the body hides."""
    axis, found = side.value, []
    for block in model.free_blocks():
        others = [body for body in model.blocks if body is not block]
        for one, two in edges(block):
            run, rise = one[axis] - two[axis], abs(one[1 - axis] - two[1 - axis])
            if run <= 0 or not any_slope and (run < rise or run == rise and side is Side.LEFT):
                continue
            start, end = exact(one), exact(two)
            hidden = [span for other in others if (span := hides(other, start, end, side))
                      and not passed(*(between(start, end, axis, at) for at in span))]
            for low, high in left_over(end[axis], start[axis], hidden):
                found.append(Piece(block.name, *(between(start, end, axis, at) for at in (high, low))))
    return found


def exact(corner: tuple[int, int]) -> Place:
    return Fraction(corner[0]), Fraction(corner[1])


def between(start: Place, end: Place, axis: int, at: Fraction) -> Place:
    """The place of an edge at this number of an axis."""
    way = (at - start[axis]) / (end[axis] - start[axis])
    return start[0] + way * (end[0] - start[0]), start[1] + way * (end[1] - start[1])


def split(at: Place, force: Force) -> list[tuple[tuple[int, int], Force]]:
    """Forces at whole points that have together this force and its moment."""
    x, y = floor(at[0]), floor(at[1])
    right, up = float(at[0] - x), float(at[1] - y)
    parts = {(x, y): (force[0] * (1 - up), force[1] * (1 - right)), (x, y + 1): (force[0] * up, 0.0),
             (x + 1, y): (0.0, force[1] * right)}
    return [(place, part) for place, part in parts.items() if any(part)]


@dataclass
class Laid:
    """Forces on blocks, summed by block, kind and whole point."""
    sums: dict[tuple[str, str, tuple[int, int]], Force] = field(default_factory=dict)

    def add(self, block: str, kind: str, at: Place, force: Force) -> None:
        for place, (u, v) in split(at, force):
            known = self.sums.get((block, kind, place), (0.0, 0.0))
            self.sums[block, kind, place] = known[0] + u, known[1] + v

    def pressed(self, piece: Piece, kind: str, pressures: Force, along: Force) -> None:
        """A pressure that goes evenly from a value at the start of a piece to one at its end, each times `along` for
        the whole piece: two forces at its ends, with the same sum and the same moment."""
        first, last = pressures
        for at, part in (piece.start, (2 * first + last) / 6), (piece.end, (first + 2 * last) / 6):
            self.add(piece.block, kind, at, (part * along[0], part * along[1]))

    def loads(self, times: int = 1) -> list[Load]:
        """The loads, so many times as great, in whole numbers."""
        found = [Load(block, kind, list(at), [round(times * part) for part in force])
                 for (block, kind, at), force in self.sums.items()]
        found = [load for load in found if any(load.force)]
        if len(found) > LOADS:
            raise Refused(f"{len(found)} loads, more than {LOADS}")
        for load in found:
            if max(abs(part) for part in load.force) > FORCE:
                raise Refused(f"a load of {load.block} becomes greater than {FORCE}")
        return found

    def rounded(self, kind: str, times: int = 1) -> float:
        """The sum of what rounding changes in the forces of a kind, so many times as great, as a part of their sum."""
        parts = [times * part for (_, of, _), force in self.sums.items() if of == kind for part in force]
        return sum(abs(part - round(part)) for part in parts) / (sum(abs(part) for part in parts) or 1.0)

    def times(self) -> int:
        """By what all forces must be multiplied so that rounding changes little in either kind."""
        for times in TIMES:
            if all(self.rounded(kind, times) <= ROUNDED for kind in KINDS):
                return times
        raise Refused("the forces of the earth are too small for this unit of force: take a smaller one")


def with_loads(model: Model, laid: Laid) -> tuple[Model, Scale, list[str]]:
    """The model with these loads, by what all its forces are multiplied then, and the lines to say of them."""
    times = laid.times()
    listed = laid.loads(times)
    own = [load.times(times) for load in model.loads]
    if len(own) + len(listed) > LOADS:
        raise Refused(f"{len(own) + len(listed)} loads, more than {LOADS}")
    if times > 1 and (max([abs(part) for load in own for part in load.force], default=0) > FORCE
                      or max(times * one.weight for one in model.materials) > WEIGHT):
        part = 100 * max(laid.rounded(kind) for kind in KINDS)
        raise Refused(f"rounding changes the forces of a kind by {part:.2g} %, and multiplied by {times} a weight or a "
                      "force of the model passes its limit: take another unit of force")
    lines = [f"sum {kind} {number(across_, 0)} {number(up, 0)}" for kind in KINDS
             for across_, up in [total(listed, kind, times)] if any(load.kind == kind for load in listed)]
    if times > 1:
        lines.append(f"all forces are multiplied by {times}, so that rounding changes those of no kind by more than "
                     f"{100 * ROUNDED:g} %")
    return replace(model, materials=heavier(model, times), loads=[*own, *listed]), Scale(Fraction(times)), lines


def total(loads: Sequence[Load], kind: str, times: int) -> tuple[Fraction, Fraction]:
    """The sum of the loads of a kind as they are written, in the unit of force of the structure."""
    across_, up = sum_of(load for load in loads if load.kind == kind)
    return Fraction(across_, times), Fraction(up, times)
