"""The motion of a certificate by joints and blocks: what opens, slides and turns, and what moves as one body.

Nothing here is proved. Openings and slides are whole numbers, or fractions, until they are printed.
"""
from collections.abc import Collection, Iterable, Sequence
from dataclasses import dataclass
from fractions import Fraction
from itertools import chain, combinations
from math import hypot

from masonry.model import Bearing, Block, Point
from masonry.numbers import number
from masonry.units import Units


Number = int | Fraction
Pair = tuple[Number, Number]
Move = tuple[Number, Number, Number]
LONG = 10**6  # a rate above which all are divided by the greatest one


def size(value: Number) -> Number:
    return -value if value < 0 else value


def shortened(moves: dict[str, Move]) -> dict[str, Move]:
    """A motion in shorter numbers, where it has long ones."""
    turns: list[Number] = [size(move[2]) for move in moves.values()]
    parts: list[Number] = [size(part) for move in moves.values() for part in move]
    unit: Number = max(turns, default=0) or max(parts, default=0)
    if unit <= LONG:
        return moves
    return {name: (Fraction(u) / unit, Fraction(v) / unit, Fraction(turn) / unit)
            for name, (u, v, turn) in moves.items()}


def velocity(move: Move, corner: Point, at: Point) -> Pair:
    """The velocity of the point of a block."""
    (u, v, turn), lx, ly = move, at[0] - corner[0], at[1] - corner[1]
    return u - turn * ly, v + turn * lx


def joints_of(bearings: Sequence[Bearing]) -> dict[tuple[str, str], list[int]]:
    """The numbers of the bearings of each joint, by its two bodies."""
    joints: dict[tuple[str, str], list[int]] = {}
    for index, bearing in enumerate(bearings):
        joints.setdefault((bearing.first, bearing.second), []).append(index)
    return joints


@dataclass(frozen=True)
class Between:
    """A bearing between two groups: its place, and whether anything moves there."""
    at: tuple[int, int]
    moves: bool


class Motion:
    """The motion of a table. What counts as no movement is decided once, in `settled`; all else follows from `rates`.
    Only if bodies share fewer than two bearings, their corners decide whether they move as one.

    `rates` has the opening and the slide of each bearing, times the tangent's length. `group` has a number for each
    body: the bodies that move as one have the place of the first of them in the file, and those that are still have 0.
    """

    def __init__(self, bearings: Sequence[Bearing], moves: dict[str, Move], blocks: Sequence[Block], part: float,
                 units: Units) -> None:
        self.bearings, self.moves, self.units = bearings, shortened(moves), units
        self.corners = {block.name: block.corners for block in blocks}
        self.names = ["", *self.corners]
        rates = [self.rates_of(bearing) for bearing in self.bearings]
        sizes = [float(size(rate)) / bearing.length() for bearing, pair in zip(self.bearings, rates) for rate in pair]
        self.least = part * max(sizes, default=0.0)
        self.rates = [self.settled(bearing, *pair) for bearing, pair in zip(self.bearings, rates)]
        self.group = self.grouped()

    def at(self, name: str, place: Point) -> Pair:
        """The velocity of a place as a point of a body. Fixed bodies are still."""
        return velocity(self.moves[name], self.corners[name][0], place) if name in self.moves else (0, 0)

    def rates_of(self, bearing: Bearing) -> Pair:
        """The opening and the slide of a bearing, times the tangent's length."""
        # The later body's velocity less the earlier's.
        first, second = self.at(bearing.first, bearing.at), self.at(bearing.second, bearing.at)
        (tx, ty), x, y = bearing.tangent, second[0] - first[0], second[1] - first[1]
        return tx * y - ty * x, tx * x + ty * y

    def settled(self, bearing: Bearing, opening: Number, slide: Number) -> Pair:
        """These rates, 0 where they count as none. Beside a slide with friction no opening does."""
        least = self.least * bearing.length()
        slides: Number = slide if size(slide) > least else 0
        opens: Number = opening if size(opening) > least or slides and bearing.p else 0
        return opens, slides

    def small(self, x: Number, y: Number) -> bool:
        """Whether a velocity counts as none."""
        return hypot(x, y) <= self.least

    # Bodies that move as one

    def grouped(self) -> dict[str, int]:
        """The group of each body. Fixed bodies and those without any motion begin in the group 0."""
        group = {name: number if any(self.moves.get(name, ())) else 0 for number, name in enumerate(self.corners, 1)}
        while pair := self.as_one(group):
            group = {name: pair[0] if number == pair[1] else number for name, number in group.items()}
        return group

    def as_one(self, group: dict[str, int]) -> tuple[int, int] | None:
        """Two groups that move as one, the lesser first; None if there are no more."""
        members: dict[int, list[str]] = {0: []}
        between: dict[tuple[int, int], list[Between]] = {}
        for name, number in group.items():
            members.setdefault(number, []).append(name)
        for bearing, pair in zip(self.bearings, self.rates):
            one, other = sorted((group[bearing.first], group[bearing.second]))
            if one != other:
                between.setdefault((one, other), []).append(Between(bearing.at, any(pair)))

        def move_as_one(one: int, other: int) -> bool:
            ends = between.get((one, other), [])
            if any(end.moves for end in ends):
                return False
            return len({end.at for end in ends}) > 1 or self.alike(one, other, members)

        pairs = chain(between, combinations(sorted(members), 2))
        return next((pair for pair in pairs if move_as_one(*pair)), None)

    def alike(self, one: int, other: int, members: dict[int, list[str]]) -> bool:
        """Whether two groups have the same velocities at all corners of either that aren't still."""
        names = [name for number in (one, other) if number for name in members[number]]
        pairs = ([self.at(self.names[number], at) for number in (one, other)]
                 for name in names for at in self.corners[name])
        return all(self.small(first[0] - second[0], first[1] - second[1]) for first, second in pairs)

    # Lines

    def long(self, value: Number | float) -> str:
        """A length, in the units that are wanted."""
        return number(float(value) * float(self.units.length))

    def joint(self, first: str, second: str, indices: Sequence[int]) -> str | None:
        """What a joint does: its openings and slides, and a word; None where it stays closed."""
        bearings, rates = [self.bearings[k] for k in indices], [self.rates[k] for k in indices]
        # A joint with one bearing may turn about it.
        if not any(map(any, rates)) and (len(rates) > 1 or self.group[first] == self.group[second]):
            return None
        length = bearings[0].length()
        openings, slides = (" ".join(self.long(rate[axis] / length) for rate in rates) for axis in (0, 1))
        return f"opening {openings} slide {slides} {self.word(bearings, rates)}"

    def word(self, bearings: Sequence[Bearing], rates: Sequence[Pair]) -> str:
        for bearing, pair in zip(bearings, rates):
            if not any(pair):
                return f"hinge {self.units.point(bearing.at)}"
        for bearing, (opening, slide) in zip(bearings, rates):
            lift = Fraction(bearing.p, bearing.q) * Fraction(size(slide))
            if slide and size(opening - lift) <= self.least * bearing.length():
                return "slides"
        return "opens"

    def groups(self) -> tuple[Collection[list[str]], list[str]]:
        """The blocks that move, those that move as one together, and the blocks that are still."""
        groups: dict[int, list[str]] = {0: []}
        for name in self.moves:
            groups.setdefault(self.group[name], []).append(name)
        still = groups.pop(0)
        return groups.values(), still

    def turning(self, names: Sequence[str]) -> str:
        """How a group of blocks moves."""
        (u, v, turn), corner = self.moves[names[0]], self.corners[names[0]][0]
        alone = len(names) == 1
        head = f"block {names[0]}" if alone else f"together {' '.join(names)}"
        ways = [(at[0] - corner[0], at[1] - corner[1]) for name in names for at in self.corners[name]]
        if not turn or (u or v) and all(self.small(turn * x, turn * y) for x, y in ways):
            return f"{head} {'moves' if alone else 'move'} {self.long(u)} {self.long(v)}"
        centre = corner[0] - Fraction(v) / turn, corner[1] + Fraction(u) / turn
        return f"{head} {'turns' if alone else 'turn'} about {self.units.point(centre)} at {number(turn)}"

    def lines(self) -> Iterable[str]:
        """The lines of all joints and blocks."""
        closed = []
        for (first, second), indices in joints_of(self.bearings).items():
            if does := self.joint(first, second, indices):
                yield f"joint {first} {second} {does}"
            else:
                closed.append(f"{first}/{second}")
        if closed:
            yield f"closed {' '.join(closed)}"
        moving, still = self.groups()
        yield from map(self.turning, moving)
        if still:
            yield f"still {' '.join(still)}"
