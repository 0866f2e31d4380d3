"""The fill on an arch, and the earth on the steps of a wall, as loads: weight, push, and loads that they spread.

Nothing here is proved. The surface of the earth is given by its height at each x, and is straight.
"""
from collections.abc import Callable
from dataclasses import dataclass
from fractions import Fraction

from masonry.console import Refused, Words
from masonry.model import Model, read
from masonry.numbers import decimal, number
from masonry.open_faces import Laid, Piece, Side, open_pieces, with_loads
from masonry.program import answer
from masonry.units import Scale

Surface = Callable[[float], float]
PARTS = 64  # so many steps of a mean
ALL = 1e-6  # how much of a load that is spread may get lost
LEAST = 1e-9  # the width of a load at a point


def depth(surface: Surface, place: tuple[Fraction, Fraction]) -> float:
    return surface(float(place[0])) - float(place[1])


def under(piece: Piece, surface: Surface) -> Piece | None:
    """The part of a piece that lies under a surface."""
    start, end = depth(surface, piece.start), depth(surface, piece.end)
    if start <= 0 and end <= 0:
        return None
    if start >= 0 and end >= 0:
        return piece
    way = Fraction(start / (start - end)).limit_denominator(10**6)
    (ax, ay), (bx, by) = piece.start, piece.end
    at = ax + way * (bx - ax), ay + way * (by - ay)
    return Piece(piece.block, piece.start, at) if start > 0 else Piece(piece.block, at, piece.end)


def weigh(laid: Laid, model: Model, piece: Piece, weight: float, surface: Surface) -> None:
    """The weight of the earth between a piece and the surface, and what the model's sway makes of it."""
    part = under(piece, surface)
    if part is None or part.start[0] == part.end[0]:
        return
    wide = float(part.start[0] - part.end[0])
    right, left = depth(surface, part.start), depth(surface, part.end)
    laid.pressed(part, "dead", (weight * right, weight * left), (0.0, -wide))
    sway = model.sway or [0, 0]
    if any(sway):
        whole = weight * wide * (right + left) / 2
        laid.add(part.block, "live", centroid(part, right, left), (whole * sway[0], whole * sway[1]))


def pushed(laid: Laid, piece: Piece, unit: float, surface: Surface) -> float:
    """Lays the push of the fill on the rise of a piece, `unit` times the depth, and gives its sum, to the right."""
    rise = float(piece.start[1] - piece.end[1])
    first, last = unit * depth(surface, piece.start), unit * depth(surface, piece.end)
    laid.pressed(piece, "dead", (first, last), (rise, 0.0))
    return (first + last) / 2 * rise


def centroid(part: Piece, right: float, left: float) -> tuple[Fraction, Fraction]:
    """That of the earth over a piece, by its depths at both ends."""
    both = 3 * (right + left)
    found = []
    for axis, lift in (0, 0.0), (1, 0.5):
        ends = float(part.start[axis]) + lift * right, float(part.end[axis]) + lift * left
        mean = (2 * right * ends[0] + 2 * left * ends[1] + right * ends[1] + left * ends[0]) / both
        found.append(Fraction(mean).limit_denominator(10**6))
    return found[0], found[1]


@dataclass(frozen=True)
class Spread:
    """A load on the surface, over a width about x, that spreads by a slope to each side for each unit of depth."""
    force: float
    x: float
    width: float
    slope: float
    kind: str

    def way(self, place: tuple[Fraction, Fraction], top: float) -> float:
        """How far from left to right a place lies in the load, from -1/2 to 1/2 between its edges."""
        return (float(place[0]) - self.x) / (self.width + 2 * self.slope * (top - float(place[1])) or LEAST)

    def on(self, piece: Piece, top: float) -> tuple[float, float]:
        """Which part of the load falls on a piece, and how far from the start to the end the middle of that part is."""
        last, first = (max(-0.5, min(0.5, self.way(place, top))) for place in (piece.start, piece.end))
        if last <= first:
            return 0.0, 0.0
        steps = [first + (last - first) * (k + 0.5) / PARTS for k in range(PARTS)]
        return last - first, sum(self.along(piece, top, step) for step in steps) / PARTS

    def along(self, piece: Piece, top: float, way: float) -> float:
        """How far from the start to the end of a piece this part of the load meets it."""
        (ax, ay), (bx, by) = ([float(part) for part in place] for place in (piece.start, piece.end))
        # x + s*(bx - ax) - X = way*(width + 2*slope*(top - ay - s*(by - ay))), with x = ax
        reach = self.width + 2 * self.slope * (top - ay)
        return (self.x + way * reach - ax) / (bx - ax + 2 * way * self.slope * (by - ay))


def lay_part(laid: Laid, pieces: list[Piece], top: float, load: Spread) -> float:
    """Lays what falls on these pieces, and gives which part of the load that is."""
    total = 0.0
    for piece in pieces:
        part, way = load.on(piece, top)
        total += part
        for at, of in (piece.start, 1 - way), (piece.end, way):
            laid.add(piece.block, load.kind, at, (0.0, -load.force * part * of))
    return total


def lay_spread(laid: Laid, pieces: list[Piece], top: float, load: Spread) -> None:
    total = lay_part(laid, pieces, top, load)
    if abs(total - 1) > ALL:
        raise Refused(f"{total:.4g} of the load that is spread about {load.x:g} falls on the structure, and not all")


# The words

TAKES = {"push": ["K"], "spread": ["FORCE", "X", "WIDTH", "SLOPE", "KIND"]}


def options(words: list[str]) -> tuple[float, list[Spread]]:
    """The coefficient of the push, and the loads that are spread."""
    push, spreads = 0.0, []
    while words:
        word = words[0]
        if word not in TAKES or len(words) < 1 + len(TAKES[word]):
            raise Words("after fill MODEL WEIGHT Y come `push K` and `spread FORCE X WIDTH SLOPE KIND`")
        if word == "push":
            push = float(decimal(words[1], "K", 0, 100))
        else:
            if words[5] not in ("dead", "live"):
                raise Words("KIND of what is spread must be dead or live")
            force, x, width, slope = (decimal(one, called, least, 10**9) for one, called, least in
                                      zip(words[1:5], TAKES[word], (0, -10**9, 0, 0)))
            if width == slope == 0:
                raise Words("WIDTH and SLOPE can't both be 0: list such a load by `variant.py with`")
            spreads.append(Spread(float(force), float(x), float(width), float(slope), words[5]))
        words = words[1 + len(TAKES[word]):]
    return push, spreads


def pieces_under(model: Model, surface: Surface) -> list[Piece]:
    """The parts of open edges of free blocks that face upwards, under a surface."""
    pieces = [part for piece in open_pieces(model, Side.UP, True) if (part := under(piece, surface))]
    if not pieces:
        raise Refused(f"no free block has an open edge upwards under the height {surface(0.0):g}")
    return pieces


def filled(words: list[str]) -> tuple[Model, Scale, list[str]]:
    """The model with the fill on its arch, by what its forces are multiplied, and what to say."""
    if len(words) < 3:
        raise Words("fill takes MODEL WEIGHT Y, and then what else you want")
    weight, top = float(decimal(words[1], "WEIGHT", 0, 10**6)), float(decimal(words[2], "Y", -10**6, 10**6))
    push, spreads = options(words[3:])
    answer("contacts", words[0])
    model, laid = read(words[0]), Laid()

    def surface(_: float) -> float:
        return top

    pieces, pushes = pieces_under(model, surface), []
    for piece in pieces:
        weigh(laid, model, piece, weight, surface)
        pushes.append(pushed(laid, piece, push * weight, surface))
    for load in spreads:
        lay_spread(laid, pieces, top, load)
    right, left = (sum(max(way * one, 0.0) for one in pushes) for way in (1, -1))
    made, scale, lines = with_loads(model, laid)
    return made, scale, [f"push right {number(right, 1e-6)} left {number(left, 1e-6)}", *lines]
