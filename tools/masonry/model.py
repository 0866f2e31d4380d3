"""Models: read, printed, their loads, and the models of shares and of stages.

Nothing here is proved. A model is read as the program reads it, from UTF-8 with or without a byte order mark, and holds
whole numbers alone. Most of its faults are left to the program, which names them. All loads are wrenches (x, y,
moment), in sixths of a unit of force, the moment counter-clockwise about the block's first corner.
"""
import json
import os
import shutil
import tomllib
from collections.abc import Callable, Iterable, Iterator, Sequence
from contextlib import contextmanager
from dataclasses import dataclass, field, replace
from fractions import Fraction
from math import gcd, hypot
from pathlib import Path
from typing import TypeVar

from masonry import console
from masonry.console import Refused


# Limits of a model.
COORDINATE, WEIGHT, FORCE, LOADS = 10**6, 10**6, 10**9, 256

Point = Sequence[int]
Wrench = list[int]
Scalar = TypeVar("Scalar", int, float, Fraction)


@dataclass
class Material:
    name: str
    weight: int
    friction: Point


@dataclass
class Joint:
    """The friction of two materials on one another."""
    first: str
    second: str
    friction: Point


@dataclass(kw_only=True)
class Block:
    """A block, or a fixed body."""
    name: str
    material: str
    fixed: bool = False
    corners: Sequence[Point]


@dataclass
class Load:
    block: str
    kind: str
    at: Point
    force: Point

    def times(self, factor: int) -> "Load":
        return replace(self, force=[factor * part for part in self.force])


@dataclass
class Model:
    version: int | None = None
    sway: Point | None = None
    materials: list[Material] = field(default_factory=list)
    joints: list[Joint] = field(default_factory=list)
    blocks: list[Block] = field(default_factory=list)
    loads: list[Load] = field(default_factory=list)

    def free_blocks(self) -> list[Block]:
        return [block for block in self.blocks if not block.fixed]

    def live_loads(self) -> list[Load]:
        return [load for load in self.loads if load.kind == "live"]

    def dead_loads(self) -> list[Load]:
        return [load for load in self.loads if load.kind != "live"]

    def has_live(self) -> bool:
        return any(self.sway or ()) or bool(self.live_loads())

    def turned(self) -> "Model":
        """The reversed model: the force of each live load and the sway have the opposite sign."""
        loads = [load.times(-1) if load.kind == "live" else load for load in self.loads]
        return replace(self, sway=self.sway and [-part for part in self.sway], loads=loads)

    def built(self, names: Iterable[str]) -> "Model":
        """The model of a stage: all fixed bodies, the blocks of these names, and the loads on them."""
        there = set(names)
        return replace(self, blocks=[block for block in self.blocks if block.fixed or block.name in there],
                       loads=[load for load in self.loads if load.block in there])


@dataclass
class Bearing:
    """A line of the table of contacts: the bodies, the point, the joint's tangent, and the friction p over q."""
    first: str
    second: str
    at: tuple[int, int]
    tangent: tuple[int, int]
    p: int
    q: int

    def parts(self, x: Scalar, y: Scalar) -> tuple[Scalar, Scalar]:
        """A vector's products with the normal and with the tangent: its parts along both times the tangent's length."""
        tx, ty = self.tangent
        return tx * y - ty * x, tx * x + ty * y

    def length(self) -> float:
        return hypot(*self.tangent)


# Reading and printing


def text_of(name: str | Path) -> str:
    try:
        return Path(name).read_bytes().decode("utf-8-sig")
    except (OSError, ValueError) as fault:
        raise Refused(f"{console.plain(name)}: {getattr(fault, 'strerror', None) or fault}") from None


class Item:
    """An item of a model's file: its values by key, and what it is called where one of them is wrong."""

    def __init__(self, values: object, called: str, keys: str) -> None:
        if not isinstance(values, dict):
            raise Refused(f"{called} is no table")
        for key in values:
            if key not in keys.split():
                raise Refused(f"{called} has the key {console.shown(key)}")
        self.values, self.called = values, called

    def value(self, key: str, kind: str, holds: Callable[[object], bool]) -> object:
        if key not in self.values:
            raise Refused(f"{self.called} has no {key}")
        if not holds(self.values[key]):
            raise Refused(f"{self.called}: its {key} is no {kind}")
        return self.values[key]

    def text(self, key: str) -> str:
        return str(self.value(key, "text", lambda value: isinstance(value, str)))

    def whole(self, key: str) -> int:
        value = self.value(key, "whole number", is_whole)
        return value if isinstance(value, int) else 0

    def pair(self, key: str) -> list[int]:
        value = self.value(key, "pair of whole numbers", is_pair)
        return value if isinstance(value, list) else []

    def truth(self, key: str) -> bool:
        return key in self.values and bool(self.value(key, "truth value", lambda value: isinstance(value, bool)))

    def corners(self) -> list[list[int]]:
        value = self.value("corners", "list of three or more pairs of whole numbers", is_outline)
        return value if isinstance(value, list) else []


def is_whole(value: object) -> bool:
    return isinstance(value, int) and not isinstance(value, bool)


def is_pair(value: object) -> bool:
    return isinstance(value, list) and len(value) == 2 and all(map(is_whole, value))


def is_outline(value: object) -> bool:
    return isinstance(value, list) and len(value) > 2 and all(map(is_pair, value))


# The key of each list, and the keys of its items.
KEYS = {"material": "name weight friction", "joint": "first second friction", "block": "name material fixed corners",
        "load": "block kind at force"}


def items_of(top: Item, key: str) -> list[Item]:
    values = top.values.get(key, [])
    if not isinstance(values, list):
        raise Refused(f"no list of [[{key}]]")
    return [Item(value, f"{key} {number}", KEYS[key]) for number, value in enumerate(values, 1)]


def model_of_document(document: object) -> Model:
    top = Item(document, "the top", f"version sway {' '.join(KEYS)}")
    materials = [Material(one.text("name"), one.whole("weight"), one.pair("friction"))
                 for one in items_of(top, "material")]
    joints = [Joint(one.text("first"), one.text("second"), one.pair("friction")) for one in items_of(top, "joint")]
    blocks = [Block(name=one.text("name"), material=one.text("material"), fixed=one.truth("fixed"),
                    corners=one.corners()) for one in items_of(top, "block")]
    loads = [Load(one.text("block"), one.text("kind"), one.pair("at"), one.pair("force"))
             for one in items_of(top, "load")]
    return Model(top.whole("version") if "version" in top.values else None,
                 top.pair("sway") if "sway" in top.values else None, materials, joints, blocks, loads)


def faults_of(model: Model) -> Iterable[str]:
    """What keeps a model from having loads, in words. The program takes a model without a free block, and says that it
    stands: so an empty file, left by a script that refused, must not go on from script to script."""
    materials, free = {one.name for one in model.materials}, {one.name for one in model.free_blocks()}
    if not free:
        yield "it has no free block, so there is nothing that could fall"
    if len(materials) < len(model.materials) or len({one.name for one in model.blocks}) < len(model.blocks):
        yield "two materials or two blocks have one name"
    for block in model.blocks:
        if block.material not in materials:
            yield f"block {block.name}: no material is named {console.shown(block.material)}"
        if not twice_area(block.corners):
            yield f"block {block.name} has no area"
    for number, load in enumerate(model.loads, 1):
        if load.block not in free:
            yield f"load {number}: no free block is named {console.shown(load.block)}"
        if load.kind not in ("dead", "live"):
            yield f"load {number} is neither dead nor live"


def model_of(text: str, name: str | Path = "model") -> Model:
    """The model of a text; a refusal names it so."""
    called = console.plain(name)
    try:
        model = model_of_document(tomllib.loads(text))
    except (ValueError, RecursionError) as fault:
        raise Refused(f"{called}: not TOML 1.0: {console.plain(fault)}") from None
    except Refused as fault:
        raise Refused(f"{called}: no model: {fault}") from None
    for wrong in faults_of(model):
        raise Refused(f"{called}: no model: {wrong}")
    return model


def read(name: str | Path) -> Model:
    """The model in a file."""
    return model_of(text_of(name), name)


def printed(model: Model) -> str:
    """The text of a model, laid out as those of examples/ are: a paragraph for each item, a line for each key.

    The strings of an accepted model are ASCII without control characters, so JSON has them as TOML does.
    """
    head = [f"{key} = {json.dumps(value)}" for key in ("version", "sway") if (value := getattr(model, key)) is not None]
    pieces = ["\n".join(head)] if head else []
    lists: list[Sequence[object]] = [model.materials, model.joints, model.blocks, model.loads]
    for key, items in zip(KEYS, lists):
        for item in items:
            lines = [f"{name} = {json.dumps(value)}" for name, value in vars(item).items()]
            pieces.append("\n".join([f"[[{key}]]", *lines]))
    return "\n\n".join(pieces) + "\n"


def write(name: str | Path, model: Model) -> None:
    put(name, printed(model))


def put(name: str | Path, text: str) -> None:
    """Writes a file."""
    with beside(name) as new:
        new.write_text(text, newline="\n")


@contextmanager
def beside(name: str | Path) -> Iterator[Path]:
    """A new file beside a regular one, or where there is none yet. It takes its place once it is written; if an
    exception ends that, what was there before stays as it was."""
    new = None
    try:
        place = writable(name)
        new = place.with_name(f".{place.name}.{os.getpid()}")
        yield new
        if place.exists():
            shutil.copymode(place, new)
        new.replace(place)
    except (OSError, ValueError) as fault:
        raise Refused(f"{console.plain(name)}: {getattr(fault, 'strerror', None) or fault}") from None
    finally:
        if new is not None:
            new.unlink(missing_ok=True)


def writable(name: str | Path) -> Path:
    """Where a file of this name is written. A device, a folder or a pipe is refused."""
    place = Path(os.path.realpath(name))
    if place.exists() and not place.is_file():
        raise Refused(f"{console.plain(name)}: it is no regular file, so nothing is written there")
    return place


def discard(name: str | Path) -> None:
    """Takes away a file that scripts have named, if it is a regular one."""
    if Path(name).is_file():
        Path(name).unlink()


# The table of contacts


def bearings_of(table: str) -> list[Bearing]:
    """The bearings of a printed table of contacts, in its order."""
    found = []
    for line in table.splitlines():
        word, *items = line.split()
        if word == "bearing":
            x, y, tx, ty, p, q = map(int, items[3:])
            found.append(Bearing(items[1], items[2], (x, y), (tx, ty), p, q))
    return found


# Loads


def sum_of(loads: Iterable[Load]) -> tuple[int, int]:
    """What loads come to, to the right and upwards."""
    forces = [load.force for load in loads]
    return sum(force[0] for force in forces), sum(force[1] for force in forces)


def twice_area(corners: Sequence[Point]) -> int:
    """Twice the area of an outline, below 0 where it runs clockwise."""
    return sum(ax * by - ay * bx for (ax, ay), (bx, by) in zip(corners, [*corners[1:], corners[0]]))


def wrench(force: Sequence[int], at: Point, corner: Point) -> Wrench:
    """A force at a point, and its moment about a corner."""
    (fx, fy), lx, ly = force, at[0] - corner[0], at[1] - corner[1]
    return [fx, fy, lx * fy - ly * fx]


def swayed(corners: Sequence[Point], unit: int, sway: Point) -> Wrench:
    """The wrench of a sway on a block of this unit weight, summed over the triangles at its first corner.

    The sway (0, -1) is the block's weight.
    """
    (ox, oy), (sx, sy), twice, across, up = corners[0], sway, 0, 0, 0
    for (ax, ay), (bx, by) in zip(corners[1:], corners[2:]):
        ax, ay, bx, by = ax - ox, ay - oy, bx - ox, by - oy
        c = ax * by - ay * bx
        twice += c
        across += c * (ax + bx)
        up += c * (ay + by)
    unit *= 1 if twice > 0 else -1  # a clockwise list
    return [3 * unit * twice * sx, 3 * unit * twice * sy, unit * (across * sy - up * sx)]


def wrenches(model: Model) -> dict[str, tuple[Wrench, Wrench]]:
    """The dead and the live loads on each free block: a pair of wrenches by name, in the order of the file."""
    units = {material.name: material.weight for material in model.materials}
    sway, found = model.sway or (0, 0), {}
    for block in model.free_blocks():
        unit = units[block.material]
        found[block.name] = swayed(block.corners, unit, (0, -1)), swayed(block.corners, unit, sway)
    corner = {block.name: block.corners[0] for block in model.blocks}
    for load in model.loads:
        loads = found[load.block][load.kind == "live"]
        for axis, amount in enumerate(wrench(load.force, load.at, corner[load.block])):
            loads[axis] += 6 * amount
    return found


# The model of a share


def share(model: Model, n: int, d: int) -> Model:
    """The model in which d times the dead loads and n times the live ones, the sway with them, are dead.

    The live loads become dead ones. The sway becomes one or two dead loads on each block, at whole points beside its
    centroid, which have the same force and the same moment. Where they would not be whole, all loads are taken 2, 3 or
    6 times as great, the least of these that makes them whole. A load above the greatest force is listed in parts.
    """
    if d < 1:
        raise Refused(f"a share over {d}")
    units = {material.name: material.weight for material in model.materials}
    sways = {block.name: swayed(block.corners, n * units[block.material], model.sway or (0, 0))
             for block in model.free_blocks()}
    more = 6 // gcd(6, *(amount for sway in sways.values() for amount in sway))
    forces: list[tuple[str, Point, list[int]]]
    forces = [(one.block, one.at, [more * (n if one.kind == "live" else d) * part for part in one.force])
              for one in model.loads]
    for block in model.free_blocks():
        load = [more * amount // 6 for amount in sways[block.name]]
        forces += [(block.name, *force) for force in forces_of(block.corners, load)]
    return Model(model.version, None, heavier(model, more * d), model.joints, model.blocks, listed(forces, "dead"))


def multiple(model: Model, made: Model, d: int) -> int:
    """By what all loads are multiplied in the model of a share, d at least."""
    return next((new.weight // old.weight for old, new in zip(model.materials, made.materials) if old.weight), d)


def heavier(model: Model, times: int) -> list[Material]:
    """The materials of a model, so many times as heavy."""
    for material in model.materials:
        if times * material.weight > WEIGHT:
            raise Refused(f"the weight of {material.name} becomes {times * material.weight}, more than {WEIGHT}")
    return [replace(material, weight=times * material.weight) for material in model.materials]


def forces_of(corners: Sequence[Point], load: Wrench) -> list[tuple[Point, list[int]]]:
    """One or two forces at whole points of a block, which have this wrench about its first corner.

    The wrench is that of a sway. The two points are neighbours, one above the other or side by side, and the line on
    which the sway acts passes between them: so both forces have the same sign. The centroid lies within two units.
    """
    fx, fy, moment = load
    if fx == fy == 0:
        return []
    _, weight, turning = swayed(corners, 1, (0, -1))
    (ox, oy), (_, _, lift) = corners[0], swayed(corners, 1, (1, 0))
    if abs(fx) >= abs(fy):
        x = turning // weight
        y, rest = divmod(x * fy - moment, fx)
        beside, part = (0, 1), (rest, 0)
    else:
        y = lift // weight
        x, rest = divmod(moment + y * fx, fy)
        beside, part = (1, 0), (0, rest)
    at = [ox + x, oy + y]
    both = (at, [fx - part[0], fy - part[1]]), ([at[0] + beside[0], at[1] + beside[1]], list(part))
    return [one for one in both if any(one[1])]


def listed(forces: Iterable[tuple[str, Point, Sequence[int]]], kind: str) -> list[Load]:
    """Loads of a kind that come to these forces (block, point, force), each in parts of at most the greatest force."""
    found: list[Load] = []
    for block, at, force in forces:
        if any(abs(place) > COORDINATE for place in at):
            raise Refused(f"a load of {block} would act at {at}, out of range")
        count = -(-max(abs(part) for part in force) // FORCE)
        if len(found) + count > LOADS:
            raise Refused(f"more than {LOADS} loads")
        for k in range(count):
            found.append(Load(block, kind, at, [(k + 1) * part // count - k * part // count for part in force]))
    return found
