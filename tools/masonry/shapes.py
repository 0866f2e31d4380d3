"""Shapes that draw.py draws: arches of voussoirs, walls of bricks and of stone, and a facade.

Nothing here is proved. Coordinates are whole numbers.
"""
import math
import random
from collections.abc import Callable, Sequence
from typing import NamedTuple

from masonry.console import Refused


Pair = tuple[int, int]


class Stone(NamedTuple):
    """A material."""
    name: str
    weight: int
    friction: Pair


class Body(NamedTuple):
    name: str
    fixed: bool
    corners: Sequence[Pair]


class Push(NamedTuple):
    """A live load."""
    block: str
    at: Pair
    force: Pair


class Drawing(NamedTuple):
    stone: Stone
    bodies: list[Body]
    load: Push


ARCH = Stone("stone", 1, (7, 10))
BRICK = Stone("brick", 1, (1, 2))
SMOOTH = "smooth"
RIGHT, DOWN = (1, 0), (0, -1)


def rectangle(left: int, bottom: int, right: int, top: int) -> list[Pair]:
    return [(left, bottom), (right, bottom), (right, top), (left, top)]


# Arches


def springers(inner: int, outer: int, depth: int) -> list[Body]:
    """The fixed bodies under an arch of half a circle, from its inner to its outer radius."""
    return [Body("right", True, rectangle(inner, -depth, outer, 0)),
            Body("left", True, rectangle(-outer, -depth, -inner, 0))]


def arch(count: int, width: float, short: bool = False) -> Drawing:
    outer = width / 2
    inner = outer - width / 8

    def at(radius: float, joint: int) -> Pair:
        angle = math.pi * joint / count
        return round(radius * math.cos(angle)), round(radius * math.sin(angle))

    joints = [(at(inner, joint), at(outer, joint)) for joint in range(count + 1)]
    if short:
        joints = short_joints(count, inner, outer - inner)
    bodies = springers(joints[0][0][0], joints[0][1][0], int(width // 10))
    for joint, ((start, end), (after, beyond)) in enumerate(zip(joints, joints[1:])):
        bodies.append(Body(f"v{joint + 1}", False, [start, end, beyond, after]))
    quarter = count // 4
    return Drawing(ARCH, bodies, Push(f"v{quarter + 1}", joints[quarter][1], DOWN))


def of_primes(number: int, primes: Sequence[int]) -> bool:
    for prime in primes:
        while number % prime == 0:
            number //= prime
    return number == 1


def short_directions(count: int) -> list[Pair]:
    """Directions for the joints of half a circle of so many voussoirs: the sums of their squares have the primes 2, 5
    and 13 alone, and none is longer than it must be for each joint to have one near its own."""
    apart = math.pi / count
    for most in (2, 5, 10, 13, 26, 50, 65, 130, 250, 338, 650, 1300, 2600, 6500):
        reach = range(-math.isqrt(most), math.isqrt(most) + 1)
        found = [(x, y) for x in reach for y in reach if y > 0 or y == 0 < x]
        found = [(x, y) for x, y in found + [(-1, 0)]
                 if math.gcd(x, y) == 1 and x * x + y * y <= most and of_primes(x * x + y * y, (2, 5, 13))]
        angles = {pair: math.atan2(pair[1], pair[0]) for pair in found}
        chosen = [min(found, key=lambda pair: abs(angles[pair] - joint * apart)) for joint in range(count + 1)]
        turned = max(abs(angles[pair] - joint * apart) for joint, pair in enumerate(chosen))
        if len(set(chosen)) == count + 1 and turned < 0.6 * apart:
            return chosen
    raise Refused(f"no short directions are known for {count} voussoirs")


def short_joints(count: int, inner: float, thickness: float) -> list[tuple[Pair, Pair]]:
    """The ends of each joint, the inner one first."""
    lengths = [number for number in range(1, 2 * math.ceil(thickness)) if of_primes(number, (2, 5))]
    joints = []
    for x, y in short_directions(count):
        size = math.hypot(x, y)
        start = round(inner * x / size), round(inner * y / size)
        length = min(lengths, key=lambda number: abs(number * size - thickness))
        joints.append((start, (start[0] + length * x, start[1] + length * y)))
    return joints


def ring(count: int, radius: float, thickness: float, degrees: float = 180) -> Drawing:
    closed = degrees == 360
    if closed and count < 3:
        raise Refused("a whole ring has three voussoirs or more")
    if closed:  # the lowest voussoir is fixed
        count, degrees = count - 1, 360 * (count - 1) / count
    start, whole = math.radians(90 - degrees / 2), math.radians(degrees)
    inner, outer = radius - thickness / 2, radius + thickness / 2

    def at(distance: float, joint: int, back: float = 0) -> Pair:
        if 2 * joint > count:  # the mirror image, so that rounding makes no difference between the halves
            x, y = at(distance, count - joint, -back)
            return -x, y
        angle = start + whole * joint / count
        return (round(distance * math.cos(angle) + back * math.sin(angle)),
                round(distance * math.sin(angle) - back * math.cos(angle)))

    bodies = []
    for name, joint, back in () if closed else (("right", 0, thickness), ("left", count, -thickness)):
        corners = [at(outer, joint), at(inner, joint), at(inner, joint, back), at(outer, joint, back)]
        bodies.append(Body(name, True, corners))
    if closed:
        bodies.append(Body("invert", True, [at(inner, count), at(outer, count), at(outer, 0), at(inner, 0)]))
    for joint in range(count):
        corners = [at(inner, joint), at(outer, joint), at(outer, joint + 1), at(inner, joint + 1)]
        bodies.append(Body(f"v{joint + 1}", False, corners))
    quarter = count // 4
    return Drawing(ARCH, bodies, Push(f"v{quarter + 1}", at(outer, quarter), DOWN))


def half(count: int, radius: float, thickness: float) -> Drawing:
    stone, bodies, load = ring(2 * count, radius, thickness)
    crown, size = bodies[count + 1].corners[-2:], round(thickness)
    (_, top), (_, bottom) = crown
    kept = [body for body in bodies if body.name in {"right", *(f"v{number + 1}" for number in range(count))}]
    return Drawing(stone, [Body(SMOOTH, True, rectangle(-size, bottom - size, 0, top + size)), *kept], load)


# Walls


def ground(length: int) -> Body:
    return Body("ground", True, rectangle(-20, -10, length + 20, 0))


def wall(courses: int, bricks: int, shift: int = 10) -> Drawing:
    bodies = [ground(20 * bricks)]
    for course in range(courses):
        ends = [20 * k for k in range(bricks + 1)]
        if course % 2 and shift:
            ends = [0] + [x + shift for x in ends[:-1]] + [20 * bricks]
        for number, (left, right) in enumerate(zip(ends, ends[1:])):
            bodies.append(Body(f"b{course}-{number}", False, rectangle(left, 10 * course, right, 10 * course + 10)))
    return Drawing(BRICK, bodies, Push(f"b{courses - 1}-0", (0, 10 * courses), RIGHT))


def coursed(courses: int, stones: int, seed: int, lean: int = 0) -> Drawing:
    draw = random.Random(seed)
    bodies, foot = [ground(20 * stones)], 0
    for course in range(courses):
        head = foot + draw.randint(8, 14)
        shift = 10 * (course % 2) - 5
        inside = [20 * k + shift + draw.randint(-4, 4) for k in range(1, stones)]
        above = [x + (draw.randint(-lean, lean) if lean else 0) for x in inside]
        ends, tops = ([0, *places, 20 * stones] for places in (inside, above))
        for k in range(stones):
            corners = [(ends[k], foot), (ends[k + 1], foot), (tops[k + 1], head), (tops[k], head)]
            bodies.append(Body(f"s{course}-{k}", False, corners))
        foot = head
    return Drawing(ARCH, bodies, Push(f"s{courses - 1}-0", (0, foot), RIGHT))


def bonded(courses: int, stones: int, seed: int, batter: int) -> Drawing:
    """The bed of a course goes along (batter, 1), and up is (-1, batter)."""
    draw = random.Random(seed)

    def at(along: int, up: int) -> Pair:
        return batter * along - up, along + batter * up

    base = [at(-20, -10), at(20 * stones + 20, -10), at(20 * stones + 20, 0), at(-20, 0)]
    bodies, foot = [Body("ground", True, base)], 0
    for course in range(courses):
        head, shift = foot + draw.randint(8, 14), 10 * (course % 2) - 5
        inside = [20 * k + shift + draw.randint(-2, 2) for k in range(1, stones)]
        above = [0, *(x + draw.randint(-2, 2) for x in inside), 20 * stones]
        below = [0, *inside, 20 * stones]
        for k in range(stones):
            corners = [at(below[k], foot), at(below[k + 1], foot), at(above[k + 1], head), at(above[k], head)]
            bodies.append(Body(f"s{course}-{k}", False, corners))
        foot = head
    return Drawing(ARCH, bodies, Push(f"s{courses - 1}-0", at(0, foot), RIGHT))


def rubble(courses: int, *rest: int) -> Drawing:
    """Of so many stones each, as many as there are courses if one number is given, and then of a seed."""
    stones, seed = (courses, *rest)[-2:]
    draw = random.Random(seed)
    corner = {}
    for row in range(courses + 1):
        for column in range(stones + 1):
            across = 0 if column in (0, stones) else draw.randint(-3, 3)
            up = 0 if row in (0, courses) else draw.randint(-3, 3)
            corner[row, column] = (20 * column + across, 20 * row + up)
    bodies = [ground(20 * stones)]
    for row in range(courses):
        for column in range(stones):
            corners = [corner[row + i, column + j] for i, j in ((0, 0), (0, 1), (1, 1), (1, 0))]
            bodies.append(Body(f"s{row}-{column}", False, corners))
    return Drawing(ARCH, bodies, Push(f"s{courses - 1}-0", corner[courses, 0], RIGHT))


def middle(least: int, most: int) -> int:
    return (least + most) // 2


def facade(seed: int | None = None) -> Drawing:
    drawn = random.Random(seed).randint if seed is not None else middle
    width, foot = 2 * drawn(180, 240), 0
    bodies = [Body("ground", True, rectangle(-100, -50, width + 100, 0))]
    for storey in "gu":
        stones, foot = storey_of(drawn, width, foot)
        bodies += [Body(storey + name, False, rectangle(*sides)) for name, sides in stones]
    return Drawing(ARCH, bodies, Push("utl", (0, foot), RIGHT))


Sides = tuple[int, int, int, int]


def storey_of(drawn: Callable[[int, int], int], width: int, foot: int) -> tuple[list[tuple[str, Sides]], int]:
    """The twelve stones of a storey, each with its left, bottom, right and top, and the height of its head.

    Two piers of three stones, l1 to l3 and r1 to r3, stand beside a window with a sill below it. On them lies the
    lintel between the ends el and er, and above these a course of two stones, tl and tr.
    """
    left, right = width // 2 - drawn(50, 70), width // 2 + drawn(50, 70)
    sill, head = foot + drawn(70, 90), foot + drawn(200, 220)
    lintel = head + drawn(25, 35)
    top = lintel + drawn(30, 50)
    stones: list[tuple[str, Sides]] = []
    for name, (inner, outer) in ("l", (0, left)), ("r", (right, width)):
        low, high = foot + drawn(55, 85), foot + drawn(125, 155)
        for number, (below, above) in enumerate(((foot, low), (low, high), (high, head))):
            stones.append((f"{name}{number + 1}", (inner, below, outer, above)))
    start, end, centre = left - drawn(15, 35), right + drawn(15, 35), width // 2 + drawn(-40, 40)
    stones += [("sill", (left, foot, right, sill)), ("lintel", (start, head, end, lintel)),
               ("el", (0, head, start, lintel)), ("er", (end, head, width, lintel)),
               ("tl", (0, lintel, centre, top)), ("tr", (centre, lintel, width, top))]
    return stones, top
