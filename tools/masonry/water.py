"""Water beside a structure, under its foot and in its beds, as dead loads; and its push in an earthquake.

Nothing here is proved. Water stands to the left up to one height and to the right up to another. It presses on each
edge that lies open to its side, square to the edge.
"""
from collections.abc import Iterator, Sequence
from dataclasses import dataclass, replace
from fractions import Fraction
from itertools import pairwise

from masonry.console import Refused, Words
from masonry.fill import Surface, under
from masonry.model import Bearing, Block, Model, bearings_of, read
from masonry.numbers import decimal, number, whole
from masonry.open_faces import Force, Laid, Piece, Place, Side, across, edges, left_over, open_pieces, with_loads
from masonry.program import answer
from masonry.units import Scale

NEAR = Fraction(1, 10**6)  # just above or below an edge
FORM = "water takes MODEL WEIGHT LEVEL, and then `right RIGHT`, `foot` or `beds`, and `quake N D`"


@dataclass(frozen=True)
class Wet:
    """A part of an edge under water: the pressures at its start and its end, and what they are multiplied by to come to
    forces on the block."""
    piece: Piece
    pressures: Force
    along: Force


@dataclass(frozen=True)
class Water:
    """The unit weight, the height of the water to each side, None where there is none, and the share of the weight that
    an earthquake takes sideways, to the right if it is above 0."""
    weight: float
    left: float | None
    right: float | None
    share: float = 0.0

    def head(self, left: bool, y: float) -> float:
        """The height up to which water stands in a bed that ends at this height on that side: no lower than its end."""
        level = self.left if left else self.right
        return y if level is None else max(level, y)


# Edges that lie open


def mirrored(model: Model, x: int, y: int) -> Model:
    """The model with its places turned to the other side along an axis, if -1 stands for it."""
    return replace(model, blocks=[replace(block, corners=[[x * a, y * b] for a, b in block.corners])
                                  for block in model.blocks])


def mirror(piece: Piece, x: int, y: int) -> Piece:
    return Piece(piece.block, (x * piece.start[0], y * piece.start[1]), (x * piece.end[0], y * piece.end[1]))


def sees_left(model: Model, at: Place) -> bool:
    """Whether no body lies to the left of a place."""
    return not any(first < at[0] for first, _ in spans(model, at[1]))


def reached(model: Model, at: Place, level: Fraction) -> bool:
    """Whether water that stands to the left reaches a place: nothing lies to the left of it; or the water comes down
    behind what lies there, from a surface with nothing to the left of it."""
    if sees_left(model, at):
        return True
    behind = max(min(last, at[0]) for first, last in spans(model, at[1]) if first < at[0])
    return any(sees_left(model, (x, level - NEAR)) and not any(
        low < level and high > at[1] for body in model.blocks if min(a for a, _ in body.corners) <= x
        <= max(a for a, _ in body.corners) for low, high in [across(body, 0, x)]) for x in (at[0], behind + NEAR))


def open_left(model: Model, level: Fraction) -> Iterator[tuple[Piece, Force]]:
    """The pieces of edges that water to the left reaches, with the direction in which it presses on each, times its
    length: those that face left, and level ones above a step or under a ledge."""
    def passed(one: Place, two: Place) -> bool:
        return reached(model, ((one[0] + two[0]) / 2 - NEAR, (one[1] + two[1]) / 2), level)

    for piece in open_pieces(model, Side.LEFT, True, passed):
        (ax, ay), (bx, by) = piece.start, piece.end
        yield piece, (float(ay - by), float(bx - ax))
    for way in 1, -1:
        for piece in level_pieces(model, way):
            x, y = piece.middle()
            if reached(model, (x, y + way * NEAR), level):
                yield piece, (0.0, float(-way * (piece.start[0] - piece.end[0])))


def spans(model: Model, y: Fraction) -> Iterator[tuple[Fraction, Fraction]]:
    """From where to where each body reaches at a height."""
    for body in model.blocks:
        if min(b for _, b in body.corners) <= y <= max(b for _, b in body.corners):
            yield across(body, 1, y)


def level_pieces(model: Model, way: int) -> Iterator[Piece]:
    """The parts of level edges of free blocks that face up, or down for -1, and on which no body lies."""
    for block in model.free_blocks():
        for (ax, ay), (bx, by) in edges(block):
            if ay == by and way * (ax - bx) > 0:
                y, (low, high) = Fraction(ay), sorted((Fraction(ax), Fraction(bx)))
                for first, last in left_over(low, high, list(spans(model, y + way * NEAR))):
                    yield Piece(block.name, (last, y), (first, y))


def wet(model: Model, water: Water) -> Iterator[Wet]:
    """What lies under water, to both sides. A level top that lies open to both is pressed once."""
    pressed: set[Piece] = set()
    for x, level in (1, water.left), (-1, water.right):
        if level is None:
            continue
        seen = mirrored(model, x, 1)
        for piece, along in open_left(seen, Fraction(level)):
            part = under(piece, surface_at(level))
            if part is None:
                continue
            flows_over(seen, part, level, water.right if x > 0 else water.left)
            here = mirror(part, x, 1)
            if replace(here, start=here.end, end=here.start) not in pressed:
                pressed.add(here)
                size = share_of(part, piece)
                pressures = [water.weight * (level - float(place[1])) for place in (part.start, part.end)]
                yield Wet(here, (pressures[0], pressures[1]), (x * along[0] * size, along[1] * size))


def surface_at(level: float) -> Surface:
    return lambda _: level


def share_of(part: Piece, whole_piece: Piece) -> float:
    """The length of a part, as a part of the whole."""
    axis = 0 if whole_piece.start[1] == whole_piece.end[1] else 1
    return float((part.start[axis] - part.end[axis]) / (whole_piece.start[axis] - whole_piece.end[axis]))


def flows_over(model: Model, part: Piece, level: float, other: float | None) -> None:
    """Refuses a level top under water that lies open to both sides, if the water isn't as high on both."""
    x, y = part.middle()
    if part.start[1] == part.end[1] and other != level and sees_left(mirrored(model, -1, 1), (-x, y + NEAR)) \
            and sees_left(model, (x, y + NEAR)):
        raise Refused(f"water flows over {part.block}: let it stand as high on both sides, or no higher than the top")


def dry_below(model: Model, water: Water) -> list[str]:
    """The free blocks that hang over an opening under the surface of the water which bodies close to both sides. Water
    doesn't reach it, so none presses there."""
    level = max(height for height in (water.left, water.right) if height is not None)
    sides = [(x, mirrored(model, x, 1), height) for x, height in ((1, water.left), (-1, water.right))]

    def open_to_a_side(x: Fraction, y: Fraction) -> bool:
        return any(sees_left(seen, (way * x, y)) if height is None
                   else reached(seen, (way * x, y), Fraction(height)) for way, seen, height in sides)

    return [block.name for block in model.free_blocks()
            if any(y < level and not any(low < x < high for low, high in spans(model, y)) and not open_to_a_side(x, y)
                   for x, y in below(model, block))]


def below(model: Model, block: Block) -> Iterator[Place]:
    """Places just below the edges of a block that face down: two between any corners of all bodies, one beside each."""
    for (ax, ay), (bx, by) in edges(block):
        if ax < bx:
            among = sorted({ax, bx, *(x for body in model.blocks for x, _ in body.corners if ax < x < bx)})
            for low, high in pairwise(among):
                for x in low + 100 * NEAR, high - 100 * NEAR:
                    yield x, ay + (by - ay) * (x - ax) / (bx - ax) - NEAR


# Beds


def beds(model: Model, table: str, water: Water, foot: bool) -> Iterator[tuple[Wet, Wet]]:
    """The pressure in each bed, or in those on fixed bodies alone: on the body above it and on that below it."""
    fixed = {body.name for body in model.blocks if body.fixed}
    joints: dict[tuple[str, str], list[Bearing]] = {}
    for one in bearings_of(table):
        joints.setdefault((one.first, one.second), []).append(one)
    found = [sorted(ends, key=lambda one: one.at[0]) for ends in joints.values()
             if len(ends) == 2 and abs(ends[0].tangent[0]) > abs(ends[0].tangent[1])]
    lowest = [ends for ends in found if {ends[0].first, ends[0].second} & fixed]
    for ends in lowest:
        yield in_bed(water, ends, foot_of(lowest))
    for ends in found:
        if not foot and ends not in lowest:
            yield in_bed(water, ends, face_to_face(model, ends, found))


def in_bed(water: Water, ends: Sequence[Bearing], faces: tuple[Place, Place]) -> tuple[Wet, Wet]:
    """The pressure in a bed: the head falls evenly along x from the left one of two places to the right one."""
    (ax, ay), (bx, by) = ends[0].at, ends[1].at
    (low, foot), (high, head) = faces
    left, right = water.head(True, float(foot)), water.head(False, float(head))

    def pressure(x: int, y: int) -> float:
        return water.weight * max(left + (right - left) * float((x - low) / (high - low)) - y, 0.0)

    upper, lower = (ends[0].second, ends[0].first) if ends[0].tangent[0] > 0 else (ends[0].first, ends[0].second)
    start, end = (Fraction(ax), Fraction(ay)), (Fraction(bx), Fraction(by))
    along = float(ay - by), float(bx - ax)
    both = pressure(ax, ay), pressure(bx, by)
    return (Wet(Piece(upper, start, end), both, along),
            Wet(Piece(lower, start, end), both, (-along[0], -along[1])))


def foot_of(lowest: Sequence[Sequence[Bearing]]) -> tuple[Place, Place]:
    """Where the foot of the structure begins at the left and ends at the right, also one with steps, or one that
    slants or curves."""
    places = [(Fraction(end.at[0]), Fraction(end.at[1])) for ends in lowest for end in ends]
    return min(places), max(places)


def face_to_face(model: Model, ends: Sequence[Bearing], beds: Sequence[Sequence[Bearing]]) -> tuple[Place, Place]:
    """From where to where beds lie along the line of one, and free blocks across it. A step or a ledge on that line
    isn't pressed: it lies open to the water."""
    (ax, ay), (bx, by) = ends[0].at, ends[1].at
    slope = Fraction(by - ay, bx - ax)

    def above(place: Sequence[int]) -> Fraction:
        return place[1] - ay - slope * (place[0] - ax)

    found = [Fraction(end.at[0]) for bed in beds if not any(above(end.at) for end in bed) for end in bed]
    for block in model.free_blocks():
        if min(map(above, block.corners)) < 0 < max(map(above, block.corners)):
            for one, two in edges(block):
                here, there = above(one), above(two)
                if here * there < 0 or here == 0:
                    found.append(one[0] + (two[0] - one[0]) * here / (here - there) if here else Fraction(one[0]))
    low, high = min(found), max(found)
    return (low, ay + slope * (low - ax)), (high, ay + slope * (high - ax))


# The earthquake


def westergaard(one: Wet, water: Water) -> Wet | None:
    """The push of the water before a face in an earthquake, after Westergaard (1933): 7/8 times the share, the unit
    weight and the root of the depth here times the greatest depth. On a piece it is a pressure that goes evenly from
    one end to the other, with the same sum and the same moment."""
    deep = [pressure / water.weight for pressure in one.pressures]
    rise = deep[1] - deep[0]
    if rise <= 0:
        return None
    unit = 7 / 8 * abs(water.share) * water.weight
    total = unit * 2 / 3 * (deep[1] ** 1.5 - deep[0] ** 1.5) / rise
    about = unit * (2 / 5 * (deep[1] ** 2.5 - deep[0] ** 2.5)
                    - 2 / 3 * deep[0] * (deep[1] ** 1.5 - deep[0] ** 1.5)) / rise ** 2
    first, last = 4 * total - 6 * about, 6 * about - 2 * total
    way = 1.0 if water.share > 0 else -1.0
    return Wet(one.piece, (first, last), (way * abs(one.along[0]), 0.0))


def depth_of(pieces: Sequence[Wet], water: Water, right: bool) -> float:
    """The greatest depth of the water before the faces of one side."""
    return max((pressure / water.weight for one in pieces for pressure in one.pressures
                if (one.along[0] < 0) == right and one.along[0]), default=0.0)


def shaken(laid: Laid, pieces: Sequence[Wet], water: Water) -> None:
    """Lays the push of an earthquake: to the left and to the right of the structure it has one sense."""
    for right in False, True:
        root = depth_of(pieces, water, right) ** 0.5
        for one in pieces:
            if one.along[0] and (one.along[0] < 0) == right and (push := westergaard(one, water)):
                laid.pressed(push.piece, "dead", (root * push.pressures[0], root * push.pressures[1]), push.along)


# The words


@dataclass(frozen=True)
class Wishes:
    """Where water stands to the right, in which beds it presses, and the share of the sway."""
    right: float | None = None
    foot: bool = False
    beds: bool = False
    quake: Fraction | None = None


def wishes(words: list[str]) -> Wishes:
    found, takes = Wishes(), {"right": 1, "foot": 0, "beds": 0, "quake": 2}
    while words:
        word, count = words[0], takes.pop(words[0], None)
        if count is None or len(words) <= count:
            raise Words(FORM)
        if word == "right":
            found = replace(found, right=float(decimal(words[1], "RIGHT", -10**6, 10**6)))
        elif word == "quake":
            found = replace(found, quake=Fraction(whole(words[1], "N", 0), whole(words[2], "D", 1)))
        else:
            found = replace(found, foot=True, beds=found.beds or word == "beds")
        words = words[1 + count:]
    return found


def flooded(words: list[str]) -> tuple[Model, Scale, list[str]]:
    """The model with water beside it, by what its forces are multiplied, and what to say."""
    if len(words) < 3:
        raise Words(FORM)
    weight, level = float(decimal(words[1], "WEIGHT", Fraction(1, 10**9), 10**6)), float(decimal(words[2], "LEVEL"))
    wanted, table = wishes(words[3:]), answer("contacts", words[0])
    model, laid = read(words[0]), Laid()
    sway = model.sway or [0, 0]
    if any(sway) and wanted.quake is None or wanted.quake is not None and not sway[0]:
        raise Words("`quake N D` goes with a model that has a sway sideways, and with no other")
    water = Water(weight, level, wanted.right, float((wanted.quake or 0) * sway[0]))
    pieces = list(wet(model, water))
    if not pieces:
        raise Refused(f"no free block has an open edge to the water under the height {level:g}")
    for one in pieces:
        laid.pressed(one.piece, "dead", one.pressures, one.along)
    free = {block.name for block in model.free_blocks()}
    for one in (each for both in (beds(model, table, water, not wanted.beds) if wanted.foot else ()) for each in both):
        if one.piece.block in free:
            laid.pressed(one.piece, "dead", one.pressures, one.along)
    if water.share:
        shaken(laid, pieces, water)
    right, left = (sum(max(way * one.along[0], 0.0) * sum(one.pressures) / 2 for one in pieces) for way in (1, -1))
    made, scale, lines = with_loads(model, laid)
    dry = [" ".join(["dry below", *hang])] if (hang := dry_below(model, water)) else []
    return made, scale, [f"water pushes right {number(right, 1e-6)} left {number(left, 1e-6)}", *lines, *dry]
