#!/usr/bin/env python3
"""Reads the region of two live loads: its points, its bounds, and where to ask next.

    tools/region.py MODEL I J DIRS [from A B] [sector] [kN FORCE] [all] [csv]

Nothing here is proved, but each point and each half-plane is that of an answer of the program, or has a certificate
that `check` accepts. The factors of I and J are a and b. I and J are the numbers of live loads, such as 3; or groups of
them, such as 3,5; or `sway`, also in a group. The other live loads don't act. DIRS is a file of lines `dir M N`. The
script prints these lines, fractions first and then decimals:

    point M N at A B = A B
    unlimited M N
    refused M N REASON
    half P Q R = P Q R
    corner A B = A B WORD
    endless A B = A B WORD
    dir M N
    settled

A `point` is the furthest that the structure carries in the direction (M, N). In an `unlimited` direction there is no
limit. The program's `yield` answers for two loads; for groups and the sway each direction is a model of its own, which
`load` judges. If the numbers of a direction are too wide for the program, or above 1,000, tools/solve.py is asked.
Where it finds two shares, the one that is carried is the point, and the motion of the other one gives the half-plane. A
direction that this doesn't settle either is `refused`. A `half` says that P*a + Q*b is at most R for all that the
structure carries. Its numbers are in lowest terms; in decimals the greater of P and Q is 1 or -1. Together the
half-planes bound a polygon. Its corners are listed counter-clockwise, and then the directions in which its sides go on
without end, if it has such sides. WORD is `carried` if the corner lies in what the points, the unlimited directions
and no load at all span, or if the direction is unlimited. It is `near` if the structure carries 999/1000 of the corner,
or of the side as far as a thousand times the size of the greatest corner, and `open` otherwise.

The lines `dir` are the directions to ask next: towards the corners that aren't carried, and along the sides that go on.
With `all` the script asks them too, and those that they name, until there are none. Each direction is asked once. This
loop does the same, and leaves them in DIRS, but asks all of them again each time:

    while tools/region.py MODEL I J DIRS | grep '^dir ' >>DIRS; do :; done

The last line is `settled` if all is carried: then the polygon is the region. It is `settled to a thousandth` if all is
carried or near, and no direction meets what is near exactly: a direction towards it has whole numbers of at most 1,000.
It is `unsettled` if something is open and no new direction of whole numbers up to 1,000,000,000 comes nearer, or DIRS
has 1,000 lines.

If the structure falls without its live loads, no load at all isn't in the region. Then name factors that are carried,
with `from A B`, decimal numbers or fractions: they are dead in the models of the directions, which go out from there.
All that is printed is in factors from 0 on. `tools/solve.py .. between`, on the model of a direction, finds such
factors. With `sector` only factors a and b from 0 up are asked about: corners and sides are those of this part.

With `kN FORCE` the decimals are in kN, where a force of 1 is FORCE kN: a and b times the size of what I and J come to.
The factor of a sway stays a share of the weight. There is no `m LENGTH`: nothing that is printed is a length. With
`csv` the lines have decimals alone, and commas between words.

The exit status is that of the program; it is 70 if a file can't be read or the program can't be run, and 2 if the words
are no form. Python 3.11 or later.
"""
import sys
from collections.abc import Iterator, Sequence
from dataclasses import dataclass
from enum import Enum
from fractions import Fraction
from math import atan2

from masonry import console
from masonry.console import Ended, Progress, Words
from masonry.lp.programs import Exact
from masonry.model import text_of
from masonry.numbers import decimal, ratio
from masonry.questions import pairs
from masonry.questions.pairs import At, Direction, Half, NOTHING, Region, lowest, moved, region_of
from masonry.units import scale_of, unit_of

MOSTS = 10**3, 10**6, 10**9  # the greatest number of a direction: at first, and where that comes no nearer
LINES = 1000  # the most lines of a file of directions
NEAR, FAR = Fraction(999, 1000), 1000

Vector = tuple[Exact, Exact]


def whole(point: Vector) -> Direction:
    """The direction of a point, in lowest terms."""
    (x, y) = point
    return lowest((x.numerator * y.denominator, y.numerator * x.denominator))


def dot(one: Sequence[Exact], other: Vector) -> Exact:
    return one[0] * other[0] + one[1] * other[1]


def cross(one: Sequence[Exact], other: Sequence[Exact]) -> Exact:
    return one[0] * other[1] - one[1] * other[0]


# What is carried


class Word(Enum):
    """What is known of a corner, or of sides that go on."""
    CARRIED = "carried"
    NEAR = "near"
    OPEN = "open"


def hull(points: Sequence[Vector]) -> list[Vector]:
    """The corners of the convex hull of points, counter-clockwise."""
    def chain(ordered: Sequence[Vector]) -> list[Vector]:
        kept: list[Vector] = []
        for x, y in ordered:
            while len(kept) > 1 and cross((kept[-1][0] - kept[-2][0], kept[-1][1] - kept[-2][1]),
                                          (x - kept[-2][0], y - kept[-2][1])) <= 0:
                kept.pop()
            kept.append((x, y))
        return kept[:-1]
    ordered = sorted(set(points))
    return chain(ordered) + chain(ordered[::-1]) or ordered


class Carried:
    """What the points, the unlimited directions and no load at all span, by half-planes (normal, most).

    Each of its sides is along a side of the hull of the points, or along an unlimited direction.
    """

    def __init__(self, region: Region) -> None:
        self.unlimited = region.unlimited
        corners = hull([(Fraction(0), Fraction(0)), *region.points.values()])
        along: list[Vector]
        along = [(x - before[0], y - before[1]) for (x, y), before in zip(corners, corners[-1:] + corners)]
        along += [*self.unlimited, (1, 0), (0, 1)]
        normals = [sign for x, y in along for sign in ((x, y), (-x, -y), (-y, x), (y, -x))]
        self.bounds = [(normal, max(dot(normal, corner) for corner in corners)) for normal in normals
                       if all(dot(normal, direction) <= 0 for direction in self.unlimited)]

    def holds(self, at: Vector, part: Exact = 1) -> bool:
        return all(part * dot(normal, at) <= most for normal, most in self.bounds)

    def of_corner(self, at: Vector) -> Word:
        return Word.CARRIED if self.holds(at) else Word.NEAR if self.holds(at, NEAR) else Word.OPEN

    def of_side(self, ray: Direction, corners: Sequence[Vector]) -> Word:
        """Whether the sides that go on in a direction are carried, or near as far out as corners may be looked at."""
        if in_cone(ray, self.unlimited):
            return Word.CARRIED
        size = max(abs(Fraction(part)) for at in corners for part in at) or 1
        far = FAR * size / Fraction(max(abs(ray[0]), abs(ray[1])))
        ends = [(x + far * ray[0], y + far * ray[1]) for x, y in corners]
        return Word.NEAR if all(self.holds(at, NEAR) for at in ends) else Word.OPEN


def in_cone(direction: Direction, rays: Sequence[Direction]) -> bool:
    """Whether a direction is a sum of multiples, from 0 up, of two rays."""
    for one in rays:
        if cross(one, direction) == 0 and dot(one, direction) > 0:
            return True
        for other in rays:
            turn = cross(one, other)
            if turn and cross(direction, other) / Fraction(turn) >= 0 and cross(one, direction) / Fraction(turn) >= 0:
                return True
    return False


# What the half-planes bound


def corners_of(halves: Sequence[Half]) -> list[Vector]:
    """The corners of the polygon that half-planes bound, counter-clockwise."""
    found: set[Vector] = set()
    for k, (p, q, r) in enumerate(halves):
        for s, t, u in halves[:k]:
            if w := p * t - q * s:
                x, y = Fraction(r * t - q * u, w), Fraction(p * u - r * s, w)
                if all(dot(half, (x, y)) <= half[2] for half in halves):
                    found.add((x, y))
    if not found:
        return []
    middle = [sum(float(at[axis]) for at in found) / len(found) for axis in (0, 1)]
    return sorted(found, key=lambda at: atan2(at[1] - middle[1], at[0] - middle[0]))


def feet_of(halves: Sequence[Half]) -> list[Vector]:
    """The point of each side that is nearest to no load at all, where that belongs to the polygon."""
    found: list[Vector] = [(Fraction(p * r, p * p + q * q), Fraction(q * r, p * p + q * q)) for p, q, r in halves]
    return [at for at in found if all(dot(half, at) <= half[2] for half in halves)]


def endless(halves: Sequence[Half]) -> list[Direction]:
    """Directions that span those in which the half-planes bound nothing."""
    candidates = [(sign * -q, sign * p) for p, q, _ in halves for sign in (1, -1)]
    if all(cross(half, halves[0]) == 0 for half in halves):
        candidates += [(-p, -q) for p, q, _ in halves]
    if not halves:
        candidates = [(1, 0), (0, 1), (-1, 0), (0, -1)]
    kept = [lowest(one) for one in candidates if all(dot(half, one) <= 0 for half in halves)]
    return list(dict.fromkeys(kept))


def askable(direction: Direction, most: int = MOSTS[0]) -> Direction:
    """The nearest direction in whole numbers up to a greatest one."""
    m, n = direction
    if abs(m) > abs(n):
        n, m = askable((n, m), most)
        return m, n
    ratio = Fraction(m, abs(n)).limit_denominator(most)
    return ratio.numerator, ratio.denominator if n > 0 else -ratio.denominator


def next_directions(region: Region, found: Sequence[tuple[Direction, Word]]) -> list[Direction]:
    """The directions to ask next, from directions and their words: open ones, as near as a direction that wasn't asked
    yet comes to them, and near ones that can be met exactly."""
    asked, wanted = region.asked(), []
    for direction, word in found:
        tried = [] if word is Word.CARRIED else [askable(direction, most) for most in MOSTS]
        fresh = [one for one in tried if one not in asked]
        if fresh and (word is Word.OPEN or tried[0] == direction == fresh[0]):
            wanted.append(fresh[0])
    return list(dict.fromkeys(wanted))[:max(0, LINES - len(asked))]


# Lines


@dataclass(frozen=True)
class Line:
    """A line: its first words, fractions, decimals, and its last words."""
    first: tuple[object, ...]
    exact: Sequence[Exact] = ()
    decimals: Sequence[float] = ()
    last: tuple[str, ...] = ()

    def laid_out(self) -> str:
        first = (*self.first, "at") if self.first[0] == "point" else self.first
        fractions = [ratio(value) if isinstance(value, Fraction) else value for value in self.exact]
        equals = ("=", *map(number, self.decimals)) if self.exact else ()
        return " ".join(map(str, (*first, *fractions, *equals, *self.last)))

    def listed(self) -> str:
        return ",".join(map(str, (*self.first, *map(number, self.decimals), *self.last)))


@dataclass(frozen=True)
class Sizes:
    """What the factors a and b are multiplied by in decimals."""
    a: float = 1.0
    b: float = 1.0

    def of(self, at: Vector) -> list[float]:
        return [float(at[0]) * self.a, float(at[1]) * self.b]

    def half(self, half: Half) -> list[float]:
        p, q = half[0] / self.a, half[1] / self.b
        size = max(abs(p), abs(q)) or 1
        return [p / size, q / size, half[2] / size]


def number(value: float) -> str:
    return f"{value:.6g}"


def lines_of(region: Region, sizes: Sizes = Sizes()) -> Iterator[Line]:
    def told(at: Vector) -> Vector:
        return at[0] + region.start[0], at[1] + region.start[1]

    for direction, at in region.points.items():
        yield Line(("point", *direction), told(at), sizes.of(told(at)))
    for direction in region.unlimited:
        yield Line(("unlimited", *direction))
    for direction, reason in region.refused.items():
        yield Line(("refused", *direction), last=(reason,))
    for half in (moved(half, region.start, 1) for half in region.halves):
        yield Line(("half",), half, sizes.half(half))
    carried, corners = Carried(region), corners_of(region.bounds())
    ends = [(at, carried.of_corner(at)) for at in corners]
    starts = corners or feet_of(region.bounds()) or [(0, 0)]
    sides = [(ray, carried.of_side(ray, starts)) for ray in endless(region.bounds())]
    for corner, word in ends:
        yield Line(("corner",), told(corner), sizes.of(told(corner)), (word.value,))
    for ray, word in sides:
        decimals = sizes.of(ray)
        size = max(abs(decimals[0]), abs(decimals[1]))
        yield Line(("endless",), ray, [part / size for part in decimals], (word.value,))
    directions = next_directions(region, [*((whole(at), word) for at, word in ends), *sides])
    for direction in directions:
        yield Line(("dir", *direction))
    if not directions:
        words = {word for _, word in (*ends, *sides)}
        yield Line(("unsettled" if Word.OPEN in words else
                    "settled to a thousandth" if Word.NEAR in words else "settled",))


def named(region: Region) -> list[Direction]:
    """The directions that the lines of a region name to ask next."""
    lines = (line.first for line in lines_of(region))
    return [(int(str(m)), int(str(n))) for word, m, n in (first for first in lines if first[0] == "dir")]


def sizes_of(words: list[str], force: Fraction) -> Sizes:
    """What the factors are multiplied by, where a force of 1 of the structure has this size."""
    pair = pairs.pair_of(*words[:3])
    unit = float(force / scale_of(text_of(words[0])).forces)
    a, b = (1.0 if group.sways else group.size(pair.model) * unit for group in (pair.one, pair.other))
    return Sizes(a, b)


def region_from(words: list[str], progress: Progress, start: At, sector: bool) -> Region:
    """The region seen from a start; says the way out if that isn't carried."""
    try:
        return region_of(words[0], words[1], words[2], words[3], progress, start, sector)
    except Ended as end:
        if end.answer.output.startswith("collapses"):
            what = "these factors aren't" if any(start) else "no load at all isn't"
            console.said(f"region: {what} carried: name a pair of factors that is, `from A B`, as `tools/solve.py .. "
                         "between` finds one on the model of a direction", 0)
        raise


def asked(words: list[str]) -> int:
    options, force, start = words[4:], None, NOTHING
    if options[:1] == ["from"] and len(options) > 2:
        start, options = (decimal(options[1], "A"), decimal(options[2], "B")), options[3:]
    sector = options[:1] == ["sector"]
    options = options[sector:]
    if len(options) > 1 and options[0] == "kN":
        options, force = options[2:], unit_of(options[1], "FORCE")
    if len(words) < 4 or options not in ([], ["csv"], ["all"], ["all", "csv"]):
        raise Words("the form is MODEL I J DIRS [from A B] [sector] [kN FORCE] [all] [csv], without m LENGTH: a region "
                    "has no lengths")
    with Progress("region") as progress:
        region = region_from(words, progress, start, sector)
        while "all" in options and (directions := named(region)):
            pairs.extend(region, (words[0], words[1], words[2]), directions, progress)
    for line in lines_of(region, sizes_of(words, force) if force else Sizes()):
        print(line.listed() if "csv" in options else line.laid_out())
    return 0


def main(words: list[str]) -> int:
    return console.ran(asked, "region", __doc__, words)


if __name__ == "__main__":
    sys.exit(main(sys.argv[1:]))
