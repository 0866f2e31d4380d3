#!/usr/bin/env python3
"""Looks at a drawing before it is judged: what nearly meets and doesn't, supports, weights and loads.

    tools/look.py MODEL [NEAR [UNIT]]

Nothing here is proved. NEAR is a distance in units of the grid, 1 if you don't give it. UNIT is what a force of 1 of
the structure is in kN: with it weights and loads are in kN. The lines:

    multiplied forces N    all forces of this model are N times those of the structure, as its first line says. With
                           UNIT weights and loads are divided by N, and the line isn't there
    multiplied lengths N   all lengths are N times those of the structure: places, areas and NEAR are those of the model
    off A X Y GAP          a load on A acts at (X, Y), beside A, at this distance from it; less than 2 isn't told
    near A B X Y GAP       the corner (X, Y) of A lies within NEAR of an edge of B, on which A doesn't bear
    touch A B X Y          A and B share only this corner, where no force acts; so do stones whose corners meet by fours
    single A B X Y         the joint of A and B is one bearing, at (X, Y)
    nothing below A        no bearing of A can carry any weight: A hangs, or is held by loads alone
    apart A ..             bodies from which no chain of bearings leads to a fixed body
    material M N AREA W    N free blocks of the material M, their area and their weight
    load KIND N FX FY      how many loads of this kind are listed, and their sum
    load sway 1 FX FY      the sum of the sway's loads
    fixed A ..             the fixed bodies

Those from `off` to `apart` are mostly mistakes, but for touches where four corners meet. Compare the others with what
you know of the structure. The exit status is 0, whatever is found. It is that of the program if it refuses the model,
70 if a file can't be read, and 2 if the words make no sense. Python 3.11 or later.
"""
import sys
from collections.abc import Iterable
from dataclasses import dataclass
from fractions import Fraction
from math import ceil, sqrt

from masonry.console import Words, ran
from masonry.model import Bearing, Block, Model, Point, bearings_of, read, sum_of, text_of, twice_area
from masonry.numbers import decimal, number
from masonry.open_faces import cross, edges, minus
from masonry.program import answer
from masonry.units import Scale, scale_of, unit_of

BESIDE = 2  # a load that is nearer to its block may lie beside it since its place was rounded


@dataclass(frozen=True)
class Box:
    """From where to where a body reaches."""
    left: int
    right: int
    bottom: int
    top: int

    def near(self, other: "Box", distance: int) -> bool:
        return (self.left - distance <= other.right and other.left <= self.right + distance
                and self.bottom - distance <= other.top and other.bottom <= self.top + distance)


def box_of(block: Block) -> Box:
    across, up = [corner[0] for corner in block.corners], [corner[1] for corner in block.corners]
    return Box(min(across), max(across), min(up), max(up))


def square(at: Point, a: Point, b: Point) -> Fraction:
    """The square of the distance from a place to an edge."""
    (u, v), (x, y) = minus(b, a), minus(at, a)
    along, length = x * u + y * v, u * u + v * v
    if along <= 0:
        return Fraction(x * x + y * y)
    if along >= length:
        return Fraction((x - u) ** 2 + (y - v) ** 2)
    return Fraction((x * v - y * u) ** 2, length)


def near_misses(model: Model, meets: dict[str, set[str]], distance: Fraction) -> Iterable[str]:
    boxes = {block.name: box_of(block) for block in model.blocks}
    for one in model.blocks:
        for other in model.blocks:
            if one is other or one.fixed and other.fixed or other.name in meets[one.name]:
                continue
            if not boxes[one.name].near(boxes[other.name], ceil(distance)):
                continue
            for x, y in one.corners:
                gap = min(square((x, y), *edge) for edge in edges(other))
                if 0 < gap <= distance ** 2:
                    yield f"near {one.name} {other.name} {x} {y} {number(sqrt(gap))}"


def off_blocks(model: Model, most: int) -> Iterable[str]:
    """The loads that act beside their block, further from it than the rounding of a place explains."""
    sides = {block.name: edges(block) for block in model.blocks}
    for name, x, y in dict.fromkeys((load.block, load.at[0], load.at[1]) for load in model.loads):
        gap = min(square((x, y), *edge) for edge in sides[name])
        if gap >= most ** 2 and any(cross(minus(b, a), minus((x, y), a)) < 0 for a, b in sides[name]):
            yield f"off {name} {x} {y} {number(sqrt(gap))}"


def carried(bearings: Iterable[Bearing]) -> set[str]:
    """The bodies that some bearing can press upwards, on one edge of its cone at least."""
    found = set()
    for one in bearings:
        (tx, ty), slip = one.tangent, Fraction(one.p, one.q)
        for name, up in (one.second, tx), (one.first, -tx):
            if up + slip * abs(ty) > 0:
                found.add(name)
    return found


def loose(model: Model, meets: dict[str, set[str]]) -> list[str]:
    """The bodies that aren't tied to a fixed one."""
    held = [block.name for block in model.blocks if block.fixed]
    seen = set(held)
    for name in held:
        more = meets[name] - seen
        seen |= more
        held += more
    return [block.name for block in model.blocks if block.name not in seen]


def multiplied(scale: Scale, in_kn: bool) -> Iterable[str]:
    """What the first line of a model says, where nothing is divided by it."""
    if scale.forces != 1 and not in_kn:
        yield f"multiplied forces {scale.forces}"
    if scale.lengths != 1:
        yield f"multiplied lengths {scale.lengths}"


def sums(model: Model, unit: Fraction) -> Iterable[str]:
    """The lines of weights and loads."""
    weights = Fraction(0)
    for material in model.materials:
        areas = [Fraction(abs(twice_area(block.corners)), 2) for block in model.free_blocks()
                 if block.material == material.name]
        weight = sum(areas, Fraction(0)) * material.weight
        weights += weight
        area = number(sum(areas, Fraction(0)))
        yield f"material {material.name} {len(areas)} {area} {number(weight * unit, 0)}"
    for kind in "dead", "live":
        loads = [load for load in model.loads if load.kind == kind]
        across, up = (number(part * unit, 0) for part in sum_of(loads))
        yield f"load {kind} {len(loads)} {across} {up}"
    if model.sway and any(model.sway):
        yield f"load sway 1 {number(weights * model.sway[0] * unit, 0)} {number(weights * model.sway[1] * unit, 0)}"
    yield " ".join(["fixed", *(block.name for block in model.blocks if block.fixed)])


def looked(model: Model, table: str, distance: Fraction, unit: Fraction) -> Iterable[str]:
    """The lines of a model and its table of contacts."""
    bearings = bearings_of(table)
    meets: dict[str, set[str]] = {block.name: set() for block in model.blocks}
    joints: dict[tuple[str, str], list[Bearing]] = {}
    for one in bearings:
        meets[one.first].add(one.second)
        meets[one.second].add(one.first)
        joints.setdefault((one.first, one.second), []).append(one)
    yield from near_misses(model, meets, distance)
    for line in table.splitlines():
        word, *items = line.split()
        if word == "touch":
            yield f"touch {' '.join(items[1:])}"
    for (first, second), ends in joints.items():
        if len(ends) == 1:
            yield f"single {first} {second} {ends[0].at[0]} {ends[0].at[1]}"
    lifted = carried(bearings)
    for block in model.free_blocks():
        if block.name not in lifted:
            yield f"nothing below {block.name}"
    if apart := loose(model, meets):
        yield " ".join(["apart", *apart])
    yield from sums(model, unit)


def main(words: list[str]) -> int:
    if len(words) > 3:
        raise Words("the words are MODEL [NEAR [UNIT]]")
    name, near, unit = [*words, *["1"] * (3 - len(words))]
    distance = decimal(near, "NEAR", 0, 10**6)
    force, in_kn = unit_of(unit, "UNIT"), len(words) == 3
    model, scale = read(name), scale_of(text_of(name))
    lines = [*multiplied(scale, in_kn), *off_blocks(model, BESIDE * scale.lengths),
             *looked(model, answer("contacts", name), distance, force / scale.forces if in_kn else force)]
    print(*lines, sep="\n")
    return 0


if __name__ == "__main__":
    sys.exit(ran(main, "look", __doc__, sys.argv[1:], "the contacts and what is near"))
