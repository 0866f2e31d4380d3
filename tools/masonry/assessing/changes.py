"""What a drawing may hide: changes of a model that mostly lower what it carries, one at a time or some together.

Nothing here is proved. The changes stand in families. Those of a family exclude one another, so at most one of each is
made together, in the order of the families.
"""
from collections.abc import Callable, Iterator, Sequence
from dataclasses import dataclass, replace
from fractions import Fraction
from math import gcd, hypot, sqrt
from tempfile import TemporaryDirectory

from look import square
from masonry import model as models, program
from masonry.console import Refused
from masonry.inset import inset
from masonry.model import FORCE, LOADS, WEIGHT, Bearing, Block, Load, Material, Model, Point, bearings_of, write
from masonry.numbers import number
from masonry.open_faces import cross, edges, minus
from masonry.units import Scale
from travel import HALF, Group, uppermost

FEW = 6  # so many live, or dead, loads are changed one by one, and no more
PRESSURE = 2  # more live loads that aren't straight down are parts of one pressure
LESS, MORE = Fraction(9, 10), Fraction(11, 10)  # of weights and dead loads
ROUGH = Fraction(5, 6)  # of friction
SMALL = 100  # a live force that rounding may change by half a percent
PART = 1000  # the greatest number of a friction, and of a sway


@dataclass(frozen=True)
class Drawing:
    """A model, by what its forces and lengths are multiplied, and what one of its factors times is a factor of the
    structure as drawn."""
    model: Model
    scale: Scale = Scale()
    times: Fraction = Fraction(1)

    def but(self, model: Model, scale: Scale = Scale(), times: Fraction | int = 1) -> "Drawing":
        """Another model made from this one's."""
        return Drawing(model, self.scale.times(scale), self.times * times)

    def live(self) -> float:
        """The size of what its live loads come to, in forces of the structure."""
        return hypot(*models.sum_of(self.model.live_loads())) / float(self.scale.forces)


Made = Callable[[Drawing], Drawing]


@dataclass(frozen=True)
class Change:
    """What its files are called; what is changed, in words; whether blocks and dead loads stay as they are; whether it
    may be made together with others; and whether it is one of many places, of which the worst alone is told."""
    name: str
    said: str
    made: Made
    only_live: bool = False
    joins: bool = True
    travels: bool = False


Family = list[Change]


@dataclass(frozen=True)
class Wishes:
    """By how much joints are made shorter, and the share up or down, as parts of the grid and of the share; and whether
    live loads that act straight down travel along the whole structure."""
    shorter: Fraction
    up: Fraction
    travels: bool = False


def families(model: Model, bearings: Sequence[Bearing], wishes: Wishes) -> Iterator[Family]:
    """All families, in the order in which changes are made together: places by the numbers of loads come first."""
    swaying = any(model.sway or ())
    live = one_by_one(model)
    for k in live:
        travels = wishes.travels and hangs(model.loads[k])
        yield [*(along(model, k) if travels else places(model, k, bearings))]
    if len(live) > 1:
        yield [Change(f"load-{k + 1}-alone", f"live load {k + 1} on {model.loads[k].block} without the others",
                      alone(k), True) for k in live]
    still = [load for load in model.dead_loads() if hangs(load)]
    if len(still) <= FEW:
        yield [Change(f"without-dead-{load.block}-{n}", f"without the dead load on {load.block} of {told(load)}",
                      missing(load)) for n, load in enumerate(still, 1)]
    if swaying and still and not model.live_loads():
        yield [Change("dead-sways", "the dead loads that act straight down sway too, at their points", sways_too)]
    if model.sway and model.sway[0] and not model.sway[1]:
        yield from of_sway(wishes.up)
    yield [*frictions(model)]
    yield from weights(model)
    yield [*dead_loads(model)]
    if bearings:
        yield [Change("shorter", f"each joint shorter by {number(wishes.shorter)} of the grid at each end",
                      shorter(wishes.shorter))]


def hangs(load: Load) -> bool:
    """Whether a load acts straight down."""
    return not load.force[0] and load.force[1] < 0


def told(load: Load) -> str:
    return "{} {}".format(*load.force)


# Loads


def one_by_one(model: Model) -> list[int]:
    """The places in the list of the live loads that may act at other places and alone. Those that go with a sway don't,
    and neither do the parts of a pressure: more than two loads that don't act straight down."""
    live = [k for k, load in enumerate(model.loads) if load.kind == "live"]
    apart = all(hangs(model.loads[k]) for k in live) and len(live) <= FEW or len(live) <= PRESSURE
    return live if apart and not any(model.sway or ()) else []


def acts_on(block: Block, load: Load, bearings: Sequence[Bearing]) -> list[tuple[Point, Point]]:
    """The edges on which a load acts and no joint is, two at a corner. What acts straight down acts on the top, no
    matter how high it is drawn."""
    found: list[tuple[Point, Point]] = []
    for a, b in edges(block):
        way, at = minus(b, a), minus(load.at, a)
        on = not cross(way, at) and 0 <= way[0] * at[0] + way[1] * at[1] <= way[0] ** 2 + way[1] ** 2
        over = b[0] <= load.at[0] <= a[0] and b[0] < a[0] and hangs(load)  # the edges above a block run to the left
        joined = any(block.name in (one.first, one.second) and not cross(way, one.tangent)
                     and not cross(way, minus(one.at, a)) for one in bearings)
        if (on or over) and cross(way, load.force) and not joined:
            found.append((a, b))
    return found


def places(model: Model, k: int, bearings: Sequence[Bearing]) -> Iterator[Change]:
    """Load k at the ends of the edge on which it acts; on a top that lies open, also on the blocks beside it."""
    load = model.loads[k]
    block = next(one for one in model.blocks if one.name == load.block)
    open_above = block in (uppermost(model, load.at[0] + side) for side in (HALF, -HALF))
    ends = [end for edge in acts_on(block, load, bearings) for end in edge]
    for number, end in enumerate(dict.fromkeys((x, y) for x, y in ends), 1):
        seats = Group(model, [k + 1]).seats(end[0]) if open_above and not load.force[0] else []
        for name in dict.fromkeys([load.block, *(one.block for (one,) in seats if one.block)]):
            if (name, end) != (load.block, tuple(load.at)):
                yield Change(f"load-{k + 1}-{number}-{name}", f"live load {k + 1} at {end[0]} {end[1]} on {name}",
                             placed(k, replace(load, block=name, at=[*end])), True)


def along(model: Model, k: int) -> Iterator[Change]:
    """Load k at each place along the structure at which it can do most, on the blocks to the left and to the right."""
    load, group = model.loads[k], Group(model, [k + 1])
    for x in group.places():
        for name in dict.fromkeys(seat.block for (seat,) in group.seats(x) if seat.block):
            if (name, x) != (load.block, load.at[0]):
                yield Change(f"load-{k + 1}-at-{x}-{name}", f"live load {k + 1} at {x} on {name}",
                             placed(k, replace(load, block=name, at=[x, load.at[1]])), True, travels=True)


def placed(k: int, load: Load) -> Made:
    def made(of: Drawing) -> Drawing:
        loads = [*of.model.loads]
        loads[k] = replace(load, force=loads[k].force)  # which may be turned round
        return of.but(replace(of.model, loads=loads))
    return made


def alone(k: int) -> Made:
    def made(of: Drawing) -> Drawing:
        return of.but(replace(of.model, loads=[one for n, one in enumerate(of.model.loads)
                                               if one.kind != "live" or n == k]))
    return made


def sways_with(model: Model, dead: Load, live: Load) -> bool:
    """Whether a live load is what a dead one takes of the sway."""
    own = [-dead.force[1] * part for part in model.sway or (0, 0)]
    return live.kind == "live" and hangs(dead) and live.block == dead.block and any(own) and own == [*live.force]


def missing(load: Load) -> Made:
    """Without a dead load, and without what it takes of the sway: of several live loads that may be that, the one at
    its place, or else the first."""
    def made(of: Drawing) -> Drawing:
        own = sorted((live for live in of.model.loads if sways_with(of.model, load, live)),
                     key=lambda live: [*live.at] != [*load.at])
        loads = [*of.model.loads]
        for one in [load, *own[:1]]:
            if one in loads:
                loads.remove(one)
        return of.but(replace(of.model, loads=loads))
    return made


def dead_loads(model: Model) -> Iterator[Change]:
    """All listed dead loads a little less, or more."""
    for part in (LESS, MORE) if model.dead_loads() else ():
        yield Change(f"dead-{float(part)}", f"listed dead loads times {float(part)}", heavier(part, None, True))


# The sway


def sways_too(of: Drawing) -> Drawing:
    more = [replace(load, kind="live", force=[-load.force[1] * part for part in of.model.sway or ()])
            for load in of.model.dead_loads() if hangs(load)]
    return of.but(listed(replace(of.model, loads=[*of.model.loads, *more])))


def of_sway(up: Fraction) -> Iterator[Family]:
    yield [Change(word, f"{up} of the share {word}wards as well", partly(sign * up))
           for word, sign in (("up", 1), ("down", -1))]


def partly(up: Fraction) -> Made:
    """A sway with a share of it upwards as well, also of the dead loads that act straight down."""
    def made(of: Drawing) -> Drawing:
        n, d = up.numerator, up.denominator
        x, y = of.model.sway or (0, 0)
        sway = [d * x, d * y + n * abs(x)]
        if max(abs(part) for part in sway) > PART:
            raise Refused(f"a sway of {sway[0]} and {sway[1]}")
        loads = [load.times(d) if load.kind == "live" else load for load in of.model.loads]
        lifts = [replace(load, kind="live", force=[0, -n * abs(x) * load.force[1]]) for load in loads
                 if load.kind != "live" and hangs(load)]
        return of.but(listed(replace(of.model, sway=sway, loads=[*loads, *lifts])), times=d)
    return made


# Materials


def used(model: Model) -> list[str]:
    """The materials of free blocks."""
    there = {block.material for block in model.free_blocks()}
    return [one.name for one in model.materials if one.name in there]


def frictions(model: Model) -> Iterator[Change]:
    rough = [one.name for one in model.materials if one.friction[0]]
    if rough:
        yield Change("friction", "friction times 5/6", smoother(set(rough)))
    for name in rough if len(rough) > 1 else []:
        yield Change(f"friction-{name}", f"friction of {name} times 5/6", smoother({name}), joins=False)


def smoother(names: set[str]) -> Made:
    def made(of: Drawing) -> Drawing:
        materials = [replace(one, friction=less(one.friction)) if one.name in names else one
                     for one in of.model.materials]
        joints = [replace(one, friction=less(one.friction)) if {one.first, one.second} & names else one
                  for one in of.model.joints]
        return of.but(replace(of.model, materials=materials, joints=joints))
    return made


def less(friction: Point) -> list[int]:
    """Five sixths of a friction, or a little less."""
    part = ROUGH * Fraction(*friction)
    if max(part.numerator, part.denominator) > PART:
        part = Fraction(int(part * PART), PART)
    return [part.numerator, part.denominator]


def weights(model: Model) -> Iterator[Family]:
    """All weights, a little less and more, and those of each material. Where nothing else acts than weights and a sway
    of them, all together change nothing."""
    heavy = [one for one in model.materials if one.weight and one.name in used(model)]
    several = 1 < len(heavy) <= FEW
    if heavy and model.loads:
        yield [Change(f"weight-{float(part)}", f"weights times {float(part)}", heavier(part, heavy, False),
                      joins=not several) for part in (LESS, MORE)]
    for one in heavy if several else []:
        yield [Change(f"weight-{float(part)}-{one.name}", f"weight of {one.name} times {float(part)}",
                      heavier(part, [one], False)) for part in (LESS, MORE)]


def heavier(part: Fraction, materials: Sequence[Material] | None, dead: bool) -> Made:
    """These materials, or all dead loads, so many times as heavy; all forces are multiplied so that they are whole."""
    names = {one.name for one in materials or ()}

    def made(of: Drawing) -> Drawing:
        model = of.model
        numbers = [one.weight for one in model.materials if one.name in names]
        numbers += [x for load in model.dead_loads() for x in load.force if dead]
        times = part.denominator // gcd(part.denominator, *numbers)
        factors = {True: times * part, False: Fraction(times)}
        changed = [replace(one, weight=int(factors[one.name in names] * one.weight)) for one in model.materials]
        changes = [dead and (load.kind != "live" or any(sways_with(model, one, load) for one in model.dead_loads()))
                   for load in model.loads]
        loads = [replace(load, force=[int(factors[change] * x) for x in load.force])
                 for load, change in zip(model.loads, changes)]
        if any(one.weight > WEIGHT for one in changed):
            raise Refused(f"a weight above {WEIGHT}")
        return of.but(listed(replace(model, materials=changed, loads=loads)), Scale(Fraction(times)))
    return made


def listed(model: Model) -> Model:
    """A model whose loads keep to their limits."""
    if len(model.loads) > LOADS or any(abs(part) > FORCE for load in model.loads for part in load.force):
        raise Refused("more loads, or greater ones, than a model may have")
    return model


# Joints


def shorter(distance: Fraction) -> Made:
    def made(of: Drawing) -> Drawing:
        with TemporaryDirectory() as folder:
            write(f"{folder}/model.toml", of.model)
            found = inset(of.model, bearings_of(program.answer("contacts", f"{folder}/model.toml")), distance)
        return of.but(found.model, found.scale)
    return made


def lengths(bearings: Sequence[Bearing]) -> list[float]:
    """The lengths of the joints with two bearings, the shortest first."""
    ends: dict[tuple[str, str], list[Bearing]] = {}
    for one in bearings:
        ends.setdefault((one.first, one.second), []).append(one)
    return sorted(hypot(*minus(pair[1].at, pair[0].at)) for pair in ends.values() if len(pair) == 2) or [0.0]


# What only the drawing shows


def oddities(model: Model) -> Iterator[str]:
    """Loads that act off their blocks, and live forces that rounding may have changed much."""
    blocks = {block.name: block for block in model.blocks}
    for k, load in enumerate(model.loads, 1):
        if (away := distance(blocks[load.block], load)) > 1:
            yield f"{load.kind} load {k} at {load.at[0]} {load.at[1]} acts {number(away)} off {load.block}"
    sizes = [max(abs(part) for part in load.force) for load in model.live_loads()]
    if small := [size for size in sizes if 0 < size < SMALL]:
        yield f"live loads of {min(small)} to {max(small)}: if they were rounded, then by up to {50 / min(small):.0f} %"


def left_out(model: Model, bearings: Sequence[Bearing], travels: bool) -> Iterator[str]:
    """The changes of a kind that is tried which aren't made of this model."""
    hanging = [load for load in model.dead_loads() if hangs(load)]
    if len(hanging) > FEW:
        yield f"a dead load that is missing: more than {FEW} act straight down"
    if other := [load.block for load in model.dead_loads() if not hangs(load)]:
        yield f"a dead load that is missing and doesn't act straight down, as on {other[0]}"
    still = [dead.block for dead in hanging if not any(sways_with(model, dead, live) for live in model.loads)]
    if any(model.sway or ()) and still and model.live_loads():
        yield f"dead loads that sway, as that on {still[0]}: beside live loads list what each takes of the sway"
    blocks = {block.name: block for block in model.blocks}
    for k in one_by_one(model):
        load = model.loads[k]
        if not (travels and hangs(load)) and not acts_on(blocks[load.block], load, bearings):
            yield f"live load {k + 1} at another place: a joint is on its edge of {load.block}, or it is on none"
    if len([one for one in model.materials if one.weight and one.name in used(model)]) > FEW:
        yield f"weights of materials one by one: there are more than {FEW}"


def distance(block: Block, load: Load) -> float:
    """How far off a block a load acts. Of what acts straight up or down the height doesn't matter."""
    if not load.force[0]:
        across = [x for x, _ in block.corners]
        return max(min(across) - load.at[0], load.at[0] - max(across), 0)
    outside = any(cross(minus(b, a), minus(load.at, a)) < 0 for a, b in edges(block))
    return sqrt(min(square(load.at, *edge) for edge in edges(block))) if outside else 0.0
