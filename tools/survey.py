#!/usr/bin/env python3
"""Makes a model of corners that were measured in metres.

    tools/survey.py CORNERS GRID TOLERANCE [short] [material NAME WEIGHT P Q] .. [fixed BLOCK] ..

Nothing here is proved. CORNERS is a file with a line `block,material,x,y` for each corner, as a spreadsheet or a CAD
program writes it (csv): the corners of each block in order, x to the right and y upwards, in metres. The first line may
be a heading. If semicolons stand between the words, numbers may have decimal commas. GRID is the side of a square of
the grid, TOLERANCE how far apart two corners may lie that are one, both in metres. Each material needs its unit weight
and its friction P/Q; bodies of the names after `fixed` are fixed.

What the script does, in this order:

1. Corners of different blocks that lie within TOLERANCE of one another come together, at their mean. So do chains of
   them. No corner of such a chain may move by more than TOLERANCE. An edge whose ends differ by at most TOLERANCE from
   level or upright becomes so, together with those that it meets in a bed or a face, at the mean of all their corners,
   if none of these must move by more than TOLERANCE for that.
2. Each corner moves to the nearest point of the grid, those that came together as one.
3. A corner that then lies off an edge of another block, but within TOLERANCE of it, moves to the nearest point of the
   grid on that edge, if there is one within TOLERANCE. On a level or an upright edge there always is, on a slanting one
   seldom: tools/look.py lists what still doesn't meet.

4. With `short` each joint is turned into a short direction, by at most TOLERANCE at each corner, as `tools/variant.py
   short` does it. On a fine grid the numbers may be too wide without that.

No block is cut, and none gets another corner. The script refuses, by name, a block that isn't strictly convex then, and
two that overlap, fixed ones too. Standard error says how far the farthest corner moved, how far the free blocks reach,
and what a force of 1 is in kN if weights are in kN/m3; and it names blocks of three corners, of which one may have been
left out. Look at the model with tools/look.py and with `contacts` before you judge it.

The exit status is 2 if the words make no sense, and 70 if the file can't be read or there is no such model. Python 3.11
or later.
"""
import csv
import re
import sys
from collections.abc import Iterable, Sequence
from dataclasses import dataclass, field
from fractions import Fraction
from itertools import combinations
from math import gcd, hypot

from masonry.console import Refused, Words, ran, shown
from masonry.directions import Turned, in_short_directions
from masonry.model import Block, COORDINATE, Material, Model, Point, WEIGHT, printed, text_of
from masonry.numbers import decimal, number, whole
from masonry.open_faces import is_convex, overlap

NAME = re.compile(r"[A-Za-z0-9_-]{1,32}", re.ASCII)
HEADING = ["block", "material", "x", "y"]


@dataclass(frozen=True)
class Corner:
    """A corner as it was measured, in metres, and whose it is."""
    block: str
    x: Fraction
    y: Fraction

    def off(self, other: "Corner") -> float:
        return hypot(self.x - other.x, self.y - other.y)


@dataclass
class Stone:
    name: str
    material: str
    corners: list[Corner] = field(default_factory=list)


@dataclass(frozen=True)
class Whole:
    """A point of the grid."""
    x: int
    y: int


@dataclass
class Drawn:
    """Blocks on the grid, and the corner that moved farthest, by how many metres."""
    stones: list[Stone]
    corners: dict[str, list[Whole]]
    farthest: Corner
    moved: float
    turned: Turned | None = None


@dataclass
class Asked:
    """Materials by name, the names of fixed bodies, and whether joints are to be in short directions."""
    materials: dict[str, Material] = field(default_factory=dict)
    fixed: list[str] = field(default_factory=list)
    short: bool = False


# The file


def stones_of(text: str) -> list[Stone]:
    found: dict[str, Stone] = {}
    commas = ";" not in text.strip().partition("\n")[0]
    try:
        lines = list(csv.reader(text.splitlines(), delimiter="," if commas else ";"))
    except csv.Error as fault:
        raise Refused(f"no csv: {fault}") from None
    for row, words in enumerate(lines, 1):
        words = [word.strip() for word in words]
        if not any(words) or row == 1 and [word.lower() for word in words] == HEADING:
            continue
        if len(words) != 4:
            raise Refused(f"line {row}: {len(words)} words, and not block,material,x,y")
        for word in words[:2]:
            if not NAME.fullmatch(word):
                raise Refused(f"line {row}: a name is 1 to 32 letters, digits, _ and -, and not {shown(word)}")
        try:
            x, y = (decimal(word if commas else word.replace(",", "."), of) for word, of in zip(words[2:], "xy"))
        except Words as fault:
            raise Refused(f"line {row}: {fault}") from None
        stone = found.setdefault(words[0], Stone(words[0], words[1]))
        if stone.material != words[1]:
            raise Refused(f"line {row}: {stone.name} is of {stone.material} before, and of {words[1]} here")
        stone.corners.append(Corner(stone.name, x, y))
    if not found:
        raise Refused("no corners")
    return list(found.values())


# Corners that come together


def together(stones: Sequence[Stone], tolerance: Fraction) -> list[list[Corner]]:
    """The corners that come together; each corner is in one of the lists."""
    groups = {id(corner): [corner] for stone in stones for corner in stone.corners}
    square = tolerance ** 2
    for one, other in combinations(stones, 2):
        for a in one.corners:
            for b in other.corners:
                if abs(a.x - b.x) <= tolerance and (a.x - b.x) ** 2 + (a.y - b.y) ** 2 <= square:
                    first, second = groups[id(a)], groups[id(b)]
                    if first is not second:
                        first += second
                        for corner in second:
                            groups[id(corner)] = first
    return list({id(group): group for group in groups.values()}.values())


def mean(group: Sequence[Corner], tolerance: Fraction) -> tuple[Fraction, Fraction]:
    x, y = (sum(parts, Fraction(0)) / len(group) for parts in zip(*((corner.x, corner.y) for corner in group)))
    for corner in group:
        if hypot(corner.x - x, corner.y - y) > tolerance:
            names = " ".join(dict.fromkeys(one.block for one in group))
            raise Refused(f"corners of {names} are a chain that is longer than the tolerance, at {number(corner.x)} "
                          f"{number(corner.y)}")
    return x, y


@dataclass(frozen=True)
class Straight:
    """An edge that is nearly level, or upright: its ends, from where to where it goes along, and where it is across."""
    ends: tuple[Corner, Corner]
    start: Fraction
    end: Fraction
    across: Fraction

    def meets(self, other: "Straight", tolerance: Fraction) -> bool:
        return (abs(self.across - other.across) <= tolerance
                and min(self.end, other.end) - max(self.start, other.start) > tolerance)


def straight(stone: Stone, axis: int, tolerance: Fraction) -> Iterable[Straight]:
    """The edges of a stone that are nearly upright (axis 0) or level (axis 1)."""
    for a, b in zip(stone.corners, stone.corners[1:] + stone.corners[:1]):
        (one, other), (start, end) = ((a.x, b.x), (a.y, b.y)) if axis == 0 else ((a.y, b.y), (a.x, b.x))
        if abs(one - other) <= tolerance < abs(start - end):
            yield Straight((a, b), min(start, end), max(start, end), (one + other) / 2)


def level(stones: Sequence[Stone], groups: Sequence[Sequence[Corner]], tolerance: Fraction, axis: int
          ) -> dict[int, Fraction]:
    """The common y of corners on a level bed (axis 1), or the common x of those on an upright face (axis 0), by the
    numbers of the groups that they belong to."""
    number = {id(corner): k for k, group in enumerate(groups) for corner in group}
    classes = [{k} for k in range(len(groups))]
    edges = [edge for stone in stones for edge in straight(stone, axis, tolerance)]
    met = [(one.ends[0], other.ends[0]) for one, other in combinations(edges, 2) if one.meets(other, tolerance)]
    for a, b in [*(edge.ends for edge in edges), *met]:
        one, other = classes[number[id(a)]], classes[number[id(b)]]
        if one is not other:
            one |= other
            for k in other:
                classes[k] = one
    found: dict[int, Fraction] = {}
    for members in {id(one): one for one in classes if len(one) > 1}.values():
        parts = [(corner.x, corner.y)[axis] for k in members for corner in groups[k]]
        middle = sum(parts, Fraction(0)) / len(parts)
        if all(abs(part - middle) <= tolerance for part in parts):
            found.update(dict.fromkeys(members, middle))
    return found


def on_grid(stones: Sequence[Stone], grid: Fraction, tolerance: Fraction) -> dict[int, Whole]:
    """Where each corner comes to lie, by its identity."""
    found, groups = {}, together(stones, tolerance)
    across, up = (level(stones, groups, tolerance, axis) for axis in (0, 1))
    for k, group in enumerate(groups):
        x, y = mean(group, tolerance)
        at = Whole(round(across.get(k, x) / grid), round(up.get(k, y) / grid))
        if max(abs(at.x), abs(at.y)) > COORDINATE:
            raise Refused(f"{group[0].block} lies beyond {COORDINATE} squares of the grid: measure from a nearer point")
        for corner in group:
            found[id(corner)] = at
    return found


def on_edge(at: Whole, start: Whole, end: Whole, reach: Fraction) -> Whole | None:
    """The nearest point of the grid on an edge to a point beside it, within reach; none where it is on the edge."""
    (u, v), (x, y) = (end.x - start.x, end.y - start.y), (at.x - start.x, at.y - start.y)
    length, count = u * u + v * v, gcd(u, v)
    if not length or u * y - v * x == 0 or (u * y - v * x) ** 2 > length * reach ** 2:
        return None
    step = round(Fraction((x * u + y * v) * count, length))
    if not 0 <= step <= count:
        return None
    moved = Whole(start.x + step * u // count, start.y + step * v // count)
    return moved if (moved.x - at.x) ** 2 + (moved.y - at.y) ** 2 <= reach ** 2 else None


def to_edges(stones: Sequence[Stone], places: dict[int, Whole], reach: Fraction) -> None:
    """Moves each point of the grid that lies close to an edge of another block onto it, with all its corners."""
    for one in stones:
        for corner in one.corners:
            at = places[id(corner)]
            sides = [(places[id(a)], places[id(b)]) for other in stones
                     if all(places[id(corner)] != at for corner in other.corners)
                     for a, b in zip(other.corners, other.corners[1:] + other.corners[:1])]
            found = [moved for a, b in sides if (moved := on_edge(at, a, b, reach))]
            if found:
                nearest = min(found, key=lambda it: (it.x - at.x) ** 2 + (it.y - at.y) ** 2)
                for key, place in places.items():
                    if place == at:
                        places[key] = nearest


# The model


def drawn(stones: list[Stone], grid: Fraction, tolerance: Fraction, short: bool = False) -> Drawn:
    """The blocks on the grid."""
    for stone in stones:
        if len(stone.corners) < 3:
            raise Refused(f"{stone.name} has {'two corners' if len(stone.corners) == 2 else 'one corner'}")
    places = on_grid(stones, grid, tolerance)
    to_edges(stones, places, tolerance / grid)
    outlines = {stone.name: [(at.x, at.y) for at in (places[id(corner)] for corner in stone.corners)]
                for stone in stones}
    for name, outline in outlines.items():
        check(name, outline)
    turned = in_short_directions(outlines, tolerance / grid) if short else None
    outlines = turned.outlines if turned else outlines
    for one, other in combinations(outlines, 2):
        if overlap(outlines[one], outlines[other]):
            raise Refused(f"{one} and {other} overlap")
    moves = [(hypot(x * grid - corner.x, y * grid - corner.y), corner)
             for stone in stones for corner, (x, y) in zip(stone.corners, outlines[stone.name])]
    moved, farthest = max(moves, key=lambda it: it[0])
    return Drawn(stones, {name: [Whole(*at) for at in of] for name, of in outlines.items()}, farthest, moved, turned)


def check(name: str, outline: Sequence[Point]) -> None:
    if len({(x, y) for x, y in outline}) < len(outline):
        raise Refused(f"{name}: two of its corners come together")
    if not is_convex(outline):
        raise Refused(f"{name} isn't convex, or three of its corners lie in a line")


def model_of(found: Drawn, asked: Asked) -> Model:
    names = list(dict.fromkeys(stone.material for stone in found.stones))
    for name in names:
        if name not in asked.materials:
            raise Refused(f"nothing is said of material {name}: add `material {name} WEIGHT P Q`")
    blocks = [Block(name=stone.name, material=stone.material, fixed=stone.name in asked.fixed,
                    corners=[[at.x, at.y] for at in found.corners[stone.name]]) for stone in found.stones]
    for name in asked.fixed:
        if name not in found.corners:
            raise Refused(f"no block is named {shown(name)}")
    return Model(None, None, [asked.materials[name] for name in names], [], blocks, [])


def asked_of(words: Sequence[str]) -> Asked:
    asked = Asked()
    rest = list(words)
    while rest:
        if rest[0] == "material" and len(rest) > 4:
            weight, p, q = (whole(word, called, least, most) for word, called, least, most in
                            zip(rest[2:5], ("WEIGHT", "P", "Q"), (0, 0, 1), (WEIGHT, 1000, 1000)))
            asked.materials[rest[1]] = Material(rest[1], weight, [p, q])
            rest = rest[5:]
        elif rest[0] == "fixed" and len(rest) > 1:
            asked.fixed.append(rest[1])
            rest = rest[2:]
        elif rest[0] == "short" and not asked.short:
            asked.short, rest = True, rest[1:]
        else:
            raise Words("after TOLERANCE come `short`, `material NAME WEIGHT P Q` and `fixed BLOCK`, and not "
                        f"{shown(rest[0])}")
    return asked


def lines_of(found: Drawn, asked: Asked, grid: Fraction) -> Iterable[str]:
    at = found.farthest
    yield f"{len(found.stones)} blocks, {sum(map(len, found.corners.values()))} corners"
    if found.turned:
        yield found.turned.line()
    yield f"the farthest corner moved by {number(found.moved)} m: {at.block}, at {number(at.x)} {number(at.y)}"
    free = [corner for name, of in found.corners.items() if name not in asked.fixed for corner in of]
    if free:
        wide, high = (grid * (max(parts) - min(parts)) for parts in zip(*((at.x, at.y) for at in free)))
        yield f"the free blocks reach over {number(wide)} m by {number(high)} m"
    yield f"a force of 1 is {number(grid ** 2, 0)} kN, if weights are in kN/m3 and the slice is 1 m deep"
    if three := [name for name, of in found.corners.items() if len(of) == 3]:
        yield f"three corners alone, maybe one is left out: {' '.join(three)}"


def main(words: list[str]) -> int:
    if len(words) < 3:
        raise Words("the words are CORNERS GRID TOLERANCE [short] [material NAME WEIGHT P Q] .. [fixed BLOCK] ..")
    grid = decimal(words[1], "GRID", Fraction(1, 10**6), 10**6)
    tolerance = decimal(words[2], "TOLERANCE", 0, 10**6)
    asked = asked_of(words[3:])
    found = drawn(stones_of(text_of(words[0])), grid, tolerance, asked.short)
    sys.stdout.write(printed(model_of(found, asked)))
    for line in lines_of(found, asked, grid):
        print(line, file=sys.stderr)
    return 0


if __name__ == "__main__":
    sys.exit(ran(main, "survey", __doc__, sys.argv[1:], "the corners"))
