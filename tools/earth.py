#!/usr/bin/env python3
"""Prints a model with the active pressure of earth behind it, the fill on an arch, or water beside it, as loads.

    tools/earth.py MODEL WEIGHT PHI DELTA BETA X Y [KIND [SURCHARGE KIND]]
    tools/earth.py MODEL WEIGHT PHI DELTA BETA X Y [dead [SURCHARGE dead]] quake N D [HEIGHT]
    tools/earth.py fill MODEL WEIGHT Y [push K] [spread FORCE X WIDTH SLOPE KIND]
    tools/earth.py water MODEL WEIGHT LEVEL [right RIGHT] [foot | beds] [quake N D]

Nothing here is proved. Numbers are decimals or fractions; N and D are whole. WEIGHT is the unit weight of the earth, in
the units of a material's `weight`.

**Earth behind a wall.** The earth lies to the left; for earth to the right see tools/variant.py, `mirrored`. Its
surface begins at (X, Y), at the back of the top course that it reaches, within a unit of the grid, and rises to the
left by BETA degrees. PHI is its angle of friction, DELTA that between earth and wall. KIND of the pressure is `dead`
unless you write `live`. SURCHARGE is a load on each unit of length along x; its pressure has its own KIND.

The back is each edge of a free block that faces left and that no other body hides; a body that is buried hides it only
if they touch. The pressure is Coulomb's active one: on an edge ka * WEIGHT * (depth below the top of the back) *
(cosine of the lean) for each unit of its length, turned by DELTA from the normal, downwards. The top of the back is
where its line meets the surface, or right above if that is higher. Edges one below the other are one back if their
corners lie within a unit of the grid of one line. Earth on a step is a dead load on it; the surcharge on a step is left
out, since it mostly holds the wall back. Behind a step, or where the back breaks, the plane of the edge below is drawn
up to the surface. If the push on it, from the step up, is greater than that on the plane of the edge above, the
difference is a load on the block with the step.

**In an earthquake** the pressure is that of Mononobe and Okabe at N/D times the sway of the model. It is dead, in place
of the static pressure. `tools/variant.py share` then makes N/D of the sway dead too, and `stand` judges the model that
it prints. Each share has its own pressure, so try shares one after the other. HEIGHT says how far above the foot the
increment of the pressure acts, as a part of the height of the back. It is between 1/3 and 2/3, and 2/3 if you don't
say, since there it tips a wall most easily; others take 1/3, 1/2 or 0.6. The increment of the pressure of a surcharge
acts no lower than at a half. The inertia of the wedge of earth is in the pressure already. Earth on a step moves with
the wall, so it sways with it.

This holds on these conditions:

- PHI, DELTA and WEIGHT are those of earth that drains and has no cohesion. There is no water behind the wall: its
  pressure, in an earthquake after Westergaard (1933), would come on top. Without an earthquake, and on a wall that
  stands on the ground, DELTA = 0 is on the safe side.
- The wall yields: it can move by some thousandths of its height. A wall that is held takes more, by the rule of a code.
- The sway is away from the earth. (For the other side leave the earth out, or take what a code says.) If it has a part
  up or down, try both.
- tan(PHI - BETA) is at least k/(1 - kv), for the share k sideways and kv upwards: else no wedge is in balance.
- The back leans by at most 45 - PHI/2 degrees. The wedge slips on a plane. With DELTA near PHI it would slip on a
  curved face, which gives a few percent more.

**Fill on an arch.** The fill lies on each edge of a free block that faces up and that no other body hides, up to the
height Y. It is a dead load, and in a model with a sway it sways with the block below. `push K` adds K * WEIGHT * depth
sideways on the rise of these edges, as a dead load. No more than the active pressure is sure: K = tan(45 - PHI/2)^2.
`spread` adds a load on the surface, FORCE downwards over WIDTH about X. It spreads by SLOPE to each side for each unit
of depth, evenly between its edges, and reaches each block by the part that falls on it. All of it must fall on the
structure.

**Water.** It stands to the left of the structure up to the height LEVEL, and to the right up to RIGHT if you write
that. It presses square on each edge of a free block that no body hides on that side, also on the tops of steps and
under ledges. A body under the surface doesn't hide what lies behind it, if water comes down between them. **An opening
that bodies close to both sides stays dry**, as a culvert: a line `dry below` names the free blocks over it. If water
fills it too, as under an arch in a flood, don't lay the water: it would hold the arch down. Draw what stands in it
lighter by the weight of the water, and in an earthquake list its uplift and its push yourself. With `foot` it also
presses in the joints on fixed bodies, with `beds` in all beds: upwards on the block above, downwards on that below.
There the head falls evenly along x, from one end of the course to the other, where steps and ledges beside it lie open,
and under the foot from its left end to its right end, also if it slants, curves or has steps. At both ends it is that
of the water, or the height of the bed if that is higher. This is for beds that are pressed from end to end: if one
opens, water stands in the open part with its full pressure, and the structure holds less. In a model with a sway `quake
N D` adds the push of the water at N/D of it, after Westergaard (1933), in the sense of the sway on both faces. All of
this is dead. Draw the stone with its full weight: its uplift is in the pressures. Earth that stands in the water is
lighter by that of the water; lay both, one after the other.

Each load is two forces at the ends of an edge, with the same sum and the same moment; only their parts are rounded.
They stand behind the loads of MODEL, which keep their numbers. If rounding would change the dead or the live ones by
more than 0.2 % of their sum, all forces of the model and all weights are multiplied by 2, 5, 10 or more. The first line
says by what; factors and shares stay the same, and look.py, read.py and region.py divide by it. Add loads of your own
before you run this script. Standard error says for each part of the back how it leans and its coefficient, and in an
earthquake at which part of the height the increment acts. For fill it says how much pushes to the right, on the left
side of an arch, and how much to the left. Then come the sums of the loads, as they are written, in which both pushes
cancel. Look at them.

The exit status is 2 if the words make no sense, 70 if the earth can't be reckoned or a file can't be read, and that of
the program if it refuses the model. Python 3.11 or later.
"""
import sys
from dataclasses import dataclass
from enum import Enum
from fractions import Fraction
from math import atan, atan2, cos, degrees, hypot, radians, sin, sqrt, tan

from masonry.console import Refused, Words, ran, shown
from masonry.fill import filled, weigh
from masonry.model import Model, printed, read, text_of
from masonry.numbers import decimal, whole
from masonry.open_faces import Laid, Piece, Place, Side, across, between, open_pieces, with_loads
from masonry.program import answer
from masonry.units import Scale, scale_of
from masonry.water import flooded

NEAR = 1.0  # how far the corners of one back may lie off its line
BESIDE = Fraction(1, 10**6)  # just to the left of an edge
HIGHEST = Fraction(2, 3)  # of the height of the back: where the increment of the pressure may act


@dataclass(frozen=True)
class Soil:
    """Angles are in radians. The shares are those of the weight, sideways and upwards."""
    weight: float
    phi: float
    delta: float
    beta: float
    surcharge: float = 0.0
    sideways: float = 0.0
    upwards: float = 0.0
    height: float = float(HIGHEST)

    def coefficient(self, lean: float, turned: float = 0.0) -> float:
        """The active coefficient of a back that leans into the earth by so much, its foot further left; after Coulomb,
        or after Mononobe and Okabe where the weights are turned by an angle."""
        phi, delta, beta = self.phi, self.delta, self.beta
        room = sin(phi - turned - beta)
        if room < 0:
            raise Refused(f"no wedge is in balance: PHI less BETA is {degrees(phi - beta):.4g} degrees, less than the "
                          f"{degrees(turned):.4g} by which the earthquake turns the weights")
        tilt = cos(delta + lean + turned)
        if tilt <= 0:
            raise Refused("the thrust of the earth is turned by more than 90 degrees from level")
        root = sqrt(sin(phi + delta) * room / (tilt * cos(lean - beta)))
        return cos(phi - lean - turned) ** 2 / (cos(turned) * cos(lean) ** 2 * tilt * (1 + root) ** 2)

    def turned(self) -> float:
        """By how much an earthquake turns the weights."""
        return atan(self.sideways / (1 - self.upwards))


@dataclass(frozen=True)
class Pressure:
    """A pressure for each unit of height, along the direction of the thrust: `even` and `rising` times the depth."""
    even: float
    rising: float

    def at(self, depth: float) -> float:
        return self.even + self.rising * max(depth, 0.0)


def thrust(total: float, high: float, height: float) -> Pressure:
    """The pressure, linear over a height, that comes to a total whose centroid is at this part of the height."""
    return Pressure(total / high * (6 * height - 2), total / high ** 2 * (6 - 12 * height))


def plus(one: Pressure, other: Pressure) -> Pressure:
    return Pressure(one.even + other.even, one.rising + other.rising)


@dataclass(frozen=True)
class Plane:
    """A part of the back: its pieces from the top down, its lean, and the height of its top at the surface."""
    pieces: list[Piece]
    lean: float
    top: float
    coefficients: tuple[float, float]
    earth: Pressure
    surcharge: Pressure

    def direction(self, soil: Soil) -> tuple[float, float]:
        """That of the thrust: DELTA off the normal."""
        return cos(soil.delta + self.lean), -sin(soil.delta + self.lean)

    def foot(self) -> float:
        return float(self.pieces[-1].end[1])

    def push(self, soil: Soil, of: "Acts", low: float) -> tuple[float, float]:
        """The push sideways on the plane from the surface down to a height, and its moment about that height."""
        pressure, deep = self.earth if of is Acts.EARTH else self.surcharge, max(self.top - low, 0.0)
        across = self.direction(soil)[0]
        return (across * (pressure.even * deep + pressure.rising * deep ** 2 / 2),
                across * (pressure.even * deep ** 2 / 2 + pressure.rising * deep ** 3 / 6))


class Acts(Enum):
    """What acts on a plane."""
    EARTH = 1
    SURCHARGE = 2


# The back


def off_line(places: list[tuple[Fraction, Fraction]]) -> float:
    """How far places lie off the line from the first to the last of them."""
    (ax, ay), (bx, by) = places[0], places[-1]
    size = hypot(bx - ax, by - ay)
    return max(abs(float((x - ax) * (by - ay) - (y - ay) * (bx - ax))) / size for x, y in places)


def chains(pieces: list[Piece]) -> list[list[Piece]]:
    """The pieces of the back from the top down, those together that lie along one line."""
    found: list[list[Piece]] = []
    for piece in sorted(pieces, key=lambda one: (-one.start[1], one.start[0])):
        last = found[-1] if found else []
        places = [place for one in (*last, piece) for place in (one.start, one.end)]
        touches = last and hypot(*(last[-1].end[axis] - piece.start[axis] for axis in (0, 1))) <= NEAR
        if touches and off_line(places) <= NEAR:
            last.append(piece)
        else:
            found.append([piece])
    return found


def lean_of(chain: list[Piece]) -> float:
    """By how much a part of the back leans; 0 where its foot is within the rounding of the grid of upright."""
    (tx, ty), (fx, fy) = chain[0].start, chain[-1].end
    return atan2(tx - fx, ty - fy)


def plane_of(chain: list[Piece], soil: Soil, start: tuple[float, float], foot: float) -> Plane:
    """The plane of a part of the back, and what presses on it. `start` is where the surface begins, `foot` the height
    of the lowest point of the back."""
    lean, (tx, ty) = lean_of(chain), chain[0].start
    most = radians(45) - soil.phi / 2
    if abs(lean) > most + 1e-9:
        raise Refused(f"the back of {chain[0].block} leans by {degrees(lean):.4g} degrees, and the wedge of earth is "
                      f"for {degrees(most):.4g} at most")
    # The line (tx + s*sin, ty + s*cos) meets the surface y = Y + (X - x)*tan(beta). What is right above counts, too.
    rise = tan(soil.beta)
    above = start[1] + (start[0] - float(tx)) * rise
    top = max(above, float(ty) + (above - float(ty)) * cos(lean) / (cos(lean) + sin(lean) * rise))
    still = soil.coefficient(lean)
    high = top - foot
    if high <= 0:
        raise Refused(f"the surface of the earth is below the back of {chain[0].block}")
    more = soil.surcharge * cos(soil.beta) * cos(lean) / cos(lean - soil.beta)
    earth, surcharge, moving = Pressure(0, still * soil.weight), Pressure(still * more, 0), still
    if soil.sideways:
        moving = soil.coefficient(lean, soil.turned()) * (1 - soil.upwards)
        rises = moving - still
        earth = plus(earth, thrust(rises * soil.weight * high ** 2 / 2, high, soil.height))
        surcharge = plus(surcharge, thrust(rises * more * high, high, max(soil.height, 0.5)))
    return Plane(chain, lean, top, (still, moving), earth, surcharge)


def below_surface(piece: Piece, soil: Soil, start: tuple[float, float]) -> bool:
    """Whether some of a piece lies under the surface of the earth."""
    return float(piece.end[1]) < start[1] + (start[0] - float(piece.end[0])) * tan(soil.beta)


# The loads


@dataclass
class Behind:
    """Earth behind a wall, and the loads that it becomes. The kinds are those of its pressure and the surcharge's."""
    model: Model
    soil: Soil
    start: tuple[float, float]
    kinds: tuple[str, str]

    def __post_init__(self) -> None:
        self.laid = Laid()
        backs = [piece for piece in open_pieces(self.model, Side.LEFT, passed=self.has_earth)
                 if below_surface(piece, self.soil, self.start)]
        if not backs:
            raise Refused("no free block has an open edge to the left under the surface of the earth")
        foot = float(min(piece.end[1] for piece in backs))
        self.planes = [plane_of(chain, self.soil, self.start, foot) for chain in chains(backs)]

    def has_earth(self, one: Place, two: Place) -> bool:
        """Whether earth lies between a part of the back and what stands to the left of it: all of that is buried, and
        nothing lies above the earth."""
        x, y = (one[0] + two[0]) / 2 - BESIDE, (one[1] + two[1]) / 2
        left = [body for body in self.model.blocks if min(b for _, b in body.corners) <= y
                <= max(b for _, b in body.corners) and across(body, 1, y)[0] < x]
        above = [body for body in self.model.blocks if min(a for a, _ in body.corners) <= x
                 <= max(a for a, _ in body.corners) and across(body, 0, x)[1] > y]
        (right, top), rise = self.start, tan(self.soil.beta)
        return not above and all(b < top + (right - a) * rise for body in left for a, b in body.corners)

    def begins(self) -> None:
        """Refuses a surface that doesn't begin at the back of the top course: on its line, or above its head."""
        (x, y), (tx, ty) = self.start, map(float, self.planes[0].pieces[0].start)
        line = tx + (y - ty) * tan(self.planes[0].lean)
        low, high = sorted((tx, line)) if y > ty else (line, line)
        if not low - NEAR <= x <= high + NEAR:
            raise Refused(f"the surface of the earth begins at X = {x:g}, and the back of "
                          f"{self.planes[0].pieces[0].block}, the top course there, is at {line:.6g}")

    def lay(self) -> None:
        for plane in self.planes:
            for piece in plane.pieces:
                self.press(plane, piece)
        steps = [piece for piece in open_pieces(self.model, Side.UP) if piece.end[0] < self.start[0]]
        first = self.planes[0]
        above = [(first, max([float(piece.start[1]) for piece in steps if piece.block == first.pieces[0].block],
                             default=first.foot()))]
        above += [(plane, plane.foot()) for plane in self.planes]
        for (plane, foot), below in zip(above, self.planes):
            self.behind_step(plane, foot, below)
        for piece in steps:
            self.weigh(piece)

    def press(self, plane: Plane, piece: Piece) -> None:
        """The pressure on a piece of the back."""
        u, v = plane.direction(self.soil)
        high, low = (plane.top - float(end[1]) for end in (piece.start, piece.end))
        for kind, pressure in zip(self.kinds, (plane.earth, plane.surcharge)):
            if high >= 0:
                size = low - high
                self.laid.pressed(piece, kind, (pressure.at(high), pressure.at(low)), (u * size, v * size))
            else:
                self.partly(piece, kind, pressure, (u, v), (low, low - high))

    def partly(self, piece: Piece, kind: str, pressure: Pressure, along: tuple[float, float],
               depths: tuple[float, float]) -> None:
        """The pressure on a piece that reaches above the surface: `depths` are that of its foot, and its height."""
        low, size = depths
        total, lever = pressure.even * low + pressure.rising * low ** 2 / 2, 0.0
        if total:
            lever = (pressure.even * low ** 2 / 2 + pressure.rising * low ** 3 / 6) / total
        for at, part in (piece.start, lever / size), (piece.end, 1 - lever / size):
            self.laid.add(piece.block, kind, at, (along[0] * total * part, along[1] * total * part))

    def behind_step(self, above: Plane, foot: float, below: Plane) -> None:
        """What a step, or a slope that faces up, has to take sideways: what the plane of the edge below it takes, less
        what the one above takes down to its foot. That goes into the block below."""
        start, block = below.pieces[0].start, below.pieces[0].block
        low = float(start[1])
        high = min(max(low, foot), above.top)
        for kind, of in zip(self.kinds, Acts):
            (less, arm), (push, lever) = above.push(self.soil, of, high), below.push(self.soil, of, low)
            total, moment = push - less, lever - arm - less * (high - low)
            if total > 1e-9 * push:
                at = Fraction(max(moment / total, 0.0)).limit_denominator(10**6)
                self.laid.add(block, kind, (start[0], start[1] + at), (total, 0.0))

    def weigh(self, piece: Piece) -> None:
        """The weight of the earth on a step, and its sway."""
        x, y = self.start
        right = Fraction(x)
        if piece.start[0] > right:
            piece = Piece(piece.block, between(piece.start, piece.end, 0, right), piece.end)
        rise = tan(self.soil.beta)
        weigh(self.laid, self.model, piece, self.soil.weight, lambda at: y + (x - at) * rise)

    def lines(self) -> list[str]:
        """What is to be said of the back."""
        found = []
        for plane in self.planes:
            names = " ".join(dict.fromkeys(piece.block for piece in plane.pieces))
            still, moving = plane.coefficients
            line = f"back {names} lean {degrees(plane.lean):.3g} ka {still:.4g}"
            if self.soil.sideways:
                line += f", in the earthquake {moving:.4g}, increment at {self.soil.height:.4g}"
            found.append(line)
        return found


# The words

TAKES = "MODEL WEIGHT PHI DELTA BETA X Y [KIND [SURCHARGE KIND]] [quake N D [HEIGHT]]"


def kind_of(word: str) -> str:
    if word not in ("dead", "live"):
        raise Words(f"KIND must be dead or live, and is {shown(word)}")
    return word


def shaken(model: Model, words: list[str]) -> tuple[float, float, float]:
    """The shares of an earthquake, sideways and upwards, and the height of the increment."""
    sway = model.sway or [0, 0]
    if not words:
        if any(sway):
            raise Words("the model has a sway: say `quake N D`, or leave the sway out")
        return 0.0, 0.0, float(HIGHEST)
    if len(words) not in (3, 4):
        raise Words("quake takes N D [HEIGHT]")
    if not any(sway):
        raise Words("the model has no sway, so there is no earthquake")
    share = Fraction(whole(words[1], "N", 0), whole(words[2], "D", 1))
    height = decimal(words[3], "HEIGHT", Fraction(1, 3), HIGHEST) if len(words) == 4 else HIGHEST
    if sway[0] <= 0:
        raise Words("the sway isn't away from the earth, to the right")
    sideways, upwards = (float(share * part) for part in sway)
    if upwards >= 1:
        raise Words("the sway lifts the earth off the ground")
    return sideways, upwards, float(height)


def behind(words: list[str]) -> tuple[Model, Scale, list[str]]:
    """The model with the earth behind its wall, by what its forces are multiplied, and what to say."""
    at = words.index("quake") if "quake" in words else len(words)
    words, rest = words[:at], words[at:]
    if len(words) not in (7, 8, 10):
        raise Words(f"the words are {TAKES}")
    name, (weight, phi, delta, beta, x, y) = words[0], numbers(words[1:7])
    kinds = kind_of([*words, "dead"][7]), kind_of(words[9] if len(words) == 10 else "dead")
    surcharge = decimal(words[8], "SURCHARGE", 0, 10**9) if len(words) == 10 else Fraction(0)
    if rest and "live" in kinds:
        raise Words("in an earthquake the pressure is dead: `variant.py share` multiplies all that is live")
    answer("contacts", name)
    model = read(name)
    sideways, upwards, height = shaken(model, rest)
    soil = Soil(weight, radians(phi), radians(delta), radians(beta), float(surcharge), sideways, upwards, height)
    earth = Behind(model, soil, (x, y), kinds)
    earth.begins()
    earth.lay()
    made, scale, lines = with_loads(model, earth.laid)
    return made, scale, earth.lines() + lines


def numbers(words: list[str]) -> tuple[float, float, float, float, float, float]:
    """The weight, the three angles and where the surface begins."""
    weight, phi = decimal(words[0], "WEIGHT", 0, 10**6), decimal(words[1], "PHI", 1, 60)
    delta, beta = decimal(words[2], "DELTA", -phi, phi), decimal(words[3], "BETA", -phi, phi)
    x, y = (decimal(word, called, -10**6, 10**6) for word, called in zip(words[4:], "XY"))
    return float(weight), float(phi), float(delta), float(beta), float(x), float(y)


def main(words: list[str]) -> int:
    form = {"fill": filled, "water": flooded}.get(words[0])
    model, more, lines = form(words[1:]) if form else behind(words)
    scale = scale_of(text_of(words[1] if form else words[0])).times(more)
    sys.stdout.write((scale.line() if scale != Scale() else "") + printed(model))
    for line in lines:
        print(line, file=sys.stderr)
    return 0


if __name__ == "__main__":
    sys.exit(ran(main, "earth", __doc__, sys.argv[1:], "the contacts and the earth"))
