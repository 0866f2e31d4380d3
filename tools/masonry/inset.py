"""A model whose joints are shorter, by corners that are cut, so that no thrust comes near the edge of a stone.

Nothing here is proved. The new model has a finer grid. Each new end of a joint is a point of that grid on the joint's
own line: off that line the two bodies would no longer bear on one another.
"""
from collections.abc import Sequence
from dataclasses import dataclass, field, replace
from fractions import Fraction
from itertools import pairwise
from math import gcd, isqrt

from masonry.console import Refused
from masonry.model import Bearing, Block, COORDINATE, FORCE, Load, Material, Model, Point, twice_area
from masonry.open_faces import cross, is_convex, minus
from masonry.units import Scale

FINEST = 1000  # the finest grid that is tried, in parts of the old one
MORE = Fraction(21, 20)  # how many times as much as asked a joint may become shorter
CORNERS = 32  # of a body, at most
SEARCHED = 12  # how far a corner is looked for, in steps of the new grid

Pair = tuple[int, int]


@dataclass(frozen=True)
class Joint:
    """A joint of two bodies, its ends, and its direction in lowest terms."""
    first: str
    second: str
    ends: tuple[Pair, Pair]
    along: Pair

    def steps(self) -> int:
        """The length, in steps of its direction."""
        (ax, ay), (bx, by) = self.ends
        return max(abs(bx - ax), abs(by - ay)) // max(abs(part) for part in self.along)


@dataclass
class Cut:
    """How much is taken off both edges at a corner, in steps of the new grid along them; 0 if no joint ends there."""
    before: int = 0
    after: int = 0


@dataclass
class Inset:
    """The new model, by what its forces and lengths are multiplied, and what to say of it."""
    model: Model
    scale: Scale
    lines: list[str] = field(default_factory=list)

    def loaded(self, loads: Sequence[Load]) -> Model:
        """The new model with other loads: some of the old model, which may act elsewhere."""
        return replace(self.model, loads=[scaled(load, self.scale) for load in loads])


def scaled(load: Load, scale: Scale) -> Load:
    """A load of the old model in the new one."""
    return replace(load, at=[scale.lengths * part for part in load.at],
                   force=[int(scale.forces * part) for part in load.force])


def joints_of(bearings: Sequence[Bearing]) -> list[Joint]:
    found: dict[tuple[str, str], list[Bearing]] = {}
    for bearing in bearings:
        found.setdefault((bearing.first, bearing.second), []).append(bearing)
    joints = []
    for (first, second), ends in found.items():
        if len(ends) == 1:
            raise Refused(f"the joint of {first} and {second} is one point, off which nothing can be taken")
        joints.append(Joint(first, second, (ends[0].at, ends[1].at), ends[0].tangent))
    return joints


# The grid


def steps_off(along: Pair, distance: Fraction, grid: int) -> int:
    """The least number of steps of the new grid along a direction that are at least this distance of the old grid."""
    square = along[0] ** 2 + along[1] ** 2
    wanted, unit = (distance.numerator * grid) ** 2, distance.denominator ** 2 * square
    steps = isqrt(wanted // unit)
    return steps if steps ** 2 * unit >= wanted else steps + 1


def excess(joints: Sequence[Joint], distance: Fraction, grid: int) -> Fraction:
    """How many times as much as asked the joints become shorter at most, squared."""
    squares = {along: along[0] ** 2 + along[1] ** 2 for along in {joint.along for joint in joints}}
    return max(steps_off(along, distance, grid) ** 2 * square / (distance * grid) ** 2
               for along, square in squares.items())


def divisor(model: Model, grid: int) -> int:
    """By what weights and loads can be divided on the new grid."""
    parts = [grid ** 2 * part for load in model.loads for part in load.force]
    return gcd(*(material.weight for material in model.materials), *parts) or 1


def fits(model: Model, grid: int) -> bool:
    reach = max(abs(part) for block in model.blocks for corner in block.corners for part in corner)
    places = max((abs(part) for load in model.loads for part in load.at), default=0)
    force = max((abs(part) for load in model.loads for part in load.force), default=0)
    return max(reach, places) * grid <= COORDINATE and force * grid ** 2 <= FORCE * divisor(model, grid)


def grid_for(model: Model, joints: Sequence[Joint], distance: Fraction) -> int:
    """The coarsest grid on which no joint becomes much shorter than asked; else the best that there is."""
    best, least = 0, Fraction(0)
    for grid in range(1, FINEST + 1):
        if not fits(model, grid):
            break
        found = excess(joints, distance, grid)
        if not best or found < least:
            best, least = grid, found
        if found <= MORE ** 2:
            break
    if not best:
        raise Refused("the model leaves no room for a grid")
    return best


# The corners


def direction(one: Point, two: Point) -> Pair:
    """That from one corner to the other, in lowest terms."""
    x, y = two[0] - one[0], two[1] - one[1]
    common = gcd(x, y)
    return x // common, y // common


def busy(block: Block, joints: Sequence[Joint]) -> set[int]:
    """The edges of a block, by the places of their starts, on which it has a joint."""
    found, corners = set(), [*block.corners, block.corners[0]]
    for joint in joints:
        for place, (one, two) in enumerate(pairwise(corners) if block.name in (joint.first, joint.second) else ()):
            if all(cross(minus(end, one), minus(two, one)) == 0 for end in joint.ends):
                found.add(place)
    return found


def cuts_of(block: Block, joints: Sequence[Joint], distance: Fraction, grid: int) -> dict[int, Cut]:
    """What is cut at the corners of a block, by their places in its list."""
    corners: list[Pair] = [(x, y) for x, y in block.corners]
    found: dict[int, Cut] = {}
    for joint in joints:
        for end in joint.ends if block.name in (joint.first, joint.second) else ():
            if end not in corners:
                continue
            place = corners.index(end)
            cut = found.setdefault(place, Cut())
            steps = steps_off(joint.along, distance, grid)
            following = direction(end, corners[(place + 1) % len(corners)])
            if following in (joint.along, (-joint.along[0], -joint.along[1])):
                cut.after = steps
            else:
                cut.before = steps
    return found


def corner_cut(edge: Pair, steps: int, free: Pair, length: int, grid: int) -> Pair:
    """The second new corner, seen from the old one, where the first is so many steps along an edge with a joint, and
    the other edge, of this length in steps of its direction, is free: the one that takes the least area."""
    sign = 1 if cross(edge, free) > 0 else -1
    reach = range(-min(grid, SEARCHED), min(grid, SEARCHED) + 1)
    near = [(x, y) for x in reach for y in reach if sign * cross(edge, (x, y)) > 0 and sign * cross((x, y), free) >= 0]
    first, last = (steps * edge[0], steps * edge[1]), (grid * length * free[0], grid * length * free[1])
    kept = [it for it in near if sign * cross(minus(last, first), minus(it, first)) > 0]
    return min([*kept, free], key=lambda it: sign * (grid * length * cross(it, free) + steps * cross(edge, it)))


def shortened(block: Block, joints: Sequence[Joint], distance: Fraction, grid: int, sparing: bool = True) -> Block:
    """The block on the new grid. From an edge on which no joint ends as little is taken as can be."""
    cuts, joined, count = cuts_of(block, joints, distance, grid), busy(block, joints), len(block.corners)
    corners: list[Point] = []
    for place, at in enumerate(block.corners):
        if place not in cuts:
            corners.append([grid * at[0], grid * at[1]])
            continue
        cut, others = cuts[place], [block.corners[(place - 1) % count], block.corners[(place + 1) % count]]
        ways, steps = [direction(at, other) for other in others], [cut.before, cut.after]
        offs = [((size or 1) * u, (size or 1) * v) for (u, v), size in zip(ways, steps)]
        for side, edge in (0, (place - 1) % count), (1, place):
            if sparing and not steps[side] and edge not in joined:
                length = gcd(*minus(others[side], at))
                offs[side] = corner_cut(ways[1 - side], steps[1 - side], ways[side], length, grid)
        corners += [[grid * at[0] + u, grid * at[1] + v] for u, v in offs]
    if not is_convex(corners):
        if sparing:
            return shortened(block, joints, distance, grid, False)
        raise Refused(f"{block.name} has an edge off which too much would be taken")
    if len(corners) > CORNERS:
        raise Refused(f"{block.name} would have {len(corners)} corners, more than {CORNERS}")
    return replace(block, corners=corners)


def inset(model: Model, bearings: Sequence[Bearing], distance: Fraction, grid: int | None = None) -> Inset:
    """The model in which each joint is shorter by a distance at each end."""
    joints = joints_of(bearings)
    if not joints:
        raise Refused("the model has no joints")
    if grid is not None and not fits(model, grid):
        raise Refused(f"on a grid {grid} times finer a coordinate or a load passes its limit")
    grid = grid or grid_for(model, joints, distance)
    for joint in joints:
        if 2 * steps_off(joint.along, distance, grid) >= grid * joint.steps():
            raise Refused(f"nothing is left of the joint of {joint.first} and {joint.second}")
    blocks = [shortened(block, joints, distance, grid) for block in model.blocks]
    common = divisor(model, grid)
    materials = [Material(one.name, one.weight // common, one.friction) for one in model.materials]
    scale = Scale(Fraction(grid ** 2, common), grid)
    made = replace(model, materials=materials, blocks=blocks, loads=[scaled(load, scale) for load in model.loads])
    return Inset(made, scale, lines_of(model, made, joints, distance, grid))


def lines_of(model: Model, made: Model, joints: Sequence[Joint], distance: Fraction, grid: int) -> list[str]:
    sizes = [steps_off(joint.along, distance, grid) * (joint.along[0] ** 2 + joint.along[1] ** 2) ** 0.5 / grid
             for joint in joints]
    lost = [1 - abs(twice_area(new.corners)) / (grid ** 2 * abs(twice_area(old.corners)))
            for old, new in zip(model.blocks, made.blocks) if not old.fixed]
    return [f"grid {grid} times finer",
            f"each joint is shorter by {min(sizes):.4g} to {max(sizes):.4g} at each end, in units of the old grid",
            f"each block is lighter by {100 * min(lost):.2g} to {100 * max(lost):.2g} %"]
