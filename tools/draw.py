#!/usr/bin/env python3
"""Draws a structure to try solvers on, and prints its model.

    tools/draw.py [sway X Y] [joint P Q] arch VOUSSOIRS WIDTH [short]
    tools/draw.py [sway X Y] [joint P Q] ring VOUSSOIRS RADIUS THICKNESS [DEGREES]
    tools/draw.py [sway X Y] [joint P Q] half VOUSSOIRS RADIUS THICKNESS
    tools/draw.py [sway X Y] [joint P Q] wall COURSES BRICKS [SHIFT]
    tools/draw.py [sway X Y] [joint P Q] coursed COURSES STONES SEED [LEAN]
    tools/draw.py [sway X Y] [joint P Q] rubble COURSES [STONES] SEED
    tools/draw.py [sway X Y] [joint P Q] bonded COURSES STONES SEED BATTER
    tools/draw.py [sway X Y] [joint P Q] facade [SEED]

Nothing here is proved. The weight and each load are 1, so a factor times the weight of a square of the grid, 1 deep, is
in kN. The friction is 7/10, of walls 1/2. With `sway X Y` that sway stands in place of the live load. With `joint P Q`
all fixed bodies are of a material of their own, and P over Q is its friction with the others.

- `arch`: half a ring of VOUSSOIRS, WIDTH wide outside and an eighth of that thick, on two springers. A live load acts
  downwards at the outer end of the joint after the first quarter of the voussoirs, from the right: at a quarter of the
  arc, which in half a circle is near the springing. For a quarter of the span move `at` to half the inner radius from
  the middle, and `block` to the voussoir under it. For the crown `at` is 0 and the outer radius, and `block` the
  middle voussoir.
- `arch .. short`: the joints have short directions, and lengths of few primes, so that certificates have short
  numbers. Each joint is turned a little for that, by less than the angle of a voussoir. docs/use/other_solvers.md says
  why this helps.
- `ring`: an arch by the radius of its middle line and its thickness, over so many DEGREES, 180 if none are given, on
  springers square to its ends. One with a clear span of 4 m, 0.5 m thick, on a grid of 1 cm is `ring 9 225 50`. With
  360 degrees it is a whole ring, as of a tunnel, whose lowest voussoir is fixed.
- `half`: the right half of a ring of twice as many voussoirs and 180 degrees, with a vertical wall without friction at
  its crown. By symmetry it stands exactly if that ring does, while its `load` is another question.
- `wall`: bricks 20 long and 10 high in running bond, BRICKS in each even course, counted from 0. An odd course is
  shifted by SHIFT units, 10 if none is given, and its ends are closed by shorter bricks. With the shift 0 all vertical
  joints are common, and `wall 5 1 0` is a pier of five blocks.
- `coursed`: horizontal courses, 8 to 14 high, of STONES stones each, about 20 long. SEED draws their heights and
  lengths at random. With LEAN each vertical joint is off plumb by at most so many units, at random; up to 5 are safe.
- `rubble`: courses of STONES stones each, as many as there are COURSES if no number is given. The stones have four
  corners and are about 20 units wide. SEED draws their common corners at random.
- `bonded`: courses, 8 to 14 high, of STONES stones each, about 20 long, in bond: a perpend is at least 4 off those of
  the course below. The face, at the right, leans back by 1 in BATTER, and so does the back. The beds are square to both
  and fall towards the back, by 1 in BATTER. All this in units of BATTER squares of the grid and a little more, so that
  each corner is a whole point on its bed. SEED draws heights and lengths, and perpends that lean, at random. The ground
  has the slope of the beds.
- `facade`: two storeys of twelve stones, with a window and a lintel in each, on a grid of 1 cm. SEED draws its
  dimensions at random; without one it is symmetric.

Walls, coursed and bonded stone, rubble and facades are pushed to the right at their upper left corner.
docs/use/other_solvers.md and docs/use/published.md have answers for some of them.

The exit status is 2 if the words make no sense, and 70 if what they ask for is no model: more than 128 blocks, say, or
a ring so thin that a voussoir has no area on the grid. Python 3.11 or later.
"""
import sys
from collections.abc import Callable
from dataclasses import dataclass
from itertools import combinations

from masonry.console import Refused, Words, ran, shown
from masonry.model import Block, COORDINATE, Joint, Load, Material, Model, printed
from masonry.numbers import decimal, whole
from masonry.open_faces import is_convex, overlap
from masonry.shapes import Drawing, SMOOTH, arch, bonded, coursed, facade, half, ring, rubble, wall

FREE = 128  # free blocks of a model at most


@dataclass(frozen=True)
class Shape:
    """A function that draws, and the forms of its words."""
    draw: Callable[..., Drawing]
    forms: tuple[str, ...]


SHAPES = {"arch": Shape(arch, ("VOUSSOIRS WIDTH", "VOUSSOIRS WIDTH short")),
          "ring": Shape(ring, ("VOUSSOIRS RADIUS THICKNESS", "VOUSSOIRS RADIUS THICKNESS DEGREES")),
          "half": Shape(half, ("VOUSSOIRS RADIUS THICKNESS",)),
          "wall": Shape(wall, ("COURSES BRICKS", "COURSES BRICKS SHIFT")),
          "coursed": Shape(coursed, ("COURSES STONES SEED", "COURSES STONES SEED LEAN")),
          "rubble": Shape(rubble, ("COURSES SEED", "COURSES STONES SEED")),
          "bonded": Shape(bonded, ("COURSES STONES SEED BATTER",)),
          "facade": Shape(facade, ("", "SEED"))}
# From where to where each number may be; decimals are taken for the last four.
LIMITS = {"VOUSSOIRS": (1, FREE), "COURSES": (1, FREE), "STONES": (1, FREE), "BRICKS": (1, FREE), "SHIFT": (0, 19),
          "SEED": (-10**18, 10**18), "LEAN": (0, 20), "BATTER": (1, 1000), "WIDTH": (1, 2 * COORDINATE),
          "RADIUS": (1, COORDINATE), "THICKNESS": (1, COORDINATE), "DEGREES": (1, 360)}
LENGTHS = "WIDTH", "RADIUS", "THICKNESS", "DEGREES"


def number(word: str, called: str) -> int | float | bool:
    """What a word of a form stands for."""
    if called.islower():
        if word != called:
            raise Words(f"{shown(word)} stands where {called} may stand")
        return True
    least, most = LIMITS[called]
    if called not in LENGTHS:
        return whole(word, called, least, most)
    value = decimal(word, called, least, most)
    return int(value) if value == int(value) else float(value)


def drawing(name: str, words: list[str]) -> Drawing:
    if name not in SHAPES:
        raise Words(f"there is no shape {shown(name)}; there are {' '.join(SHAPES)}")
    shape = SHAPES[name]
    for form in shape.forms:
        called = form.split()
        if len(called) == len(words):
            return shape.draw(*(number(word, of) for word, of in zip(words, called)))
    raise Words(f"{name} takes {' or '.join(form or 'no words' for form in shape.forms)}")


def structure(drawn: Drawing, sway: list[int] | None, joint: list[int] | None) -> Model:
    """The model of a drawing, under its live load or a sway; with a friction of its own on the fixed bodies."""
    name, weight, friction = drawn.stone
    ground = "ground" if joint else name
    materials = [Material(called, weight, friction) for called in dict.fromkeys((name, ground))]
    if any(body.name == SMOOTH for body in drawn.bodies):
        materials.append(Material(SMOOTH, weight, [0, 1]))
    joints = [Joint(ground, name, joint)] if joint else []
    blocks = [Block(name=body.name, material=SMOOTH if body.name == SMOOTH else ground if body.fixed else name,
                    fixed=body.fixed, corners=body.corners) for body in drawn.bodies]
    loads = [] if sway else [Load(drawn.load.block, "live", drawn.load.at, drawn.load.force)]
    return Model(2 if sway or joint else None, sway, materials, joints, blocks, loads)


def checked(model: Model) -> Model:
    """The model, where the program takes it."""
    if len(model.free_blocks()) > FREE:
        raise Refused(f"{len(model.free_blocks())} blocks, and a model has at most {FREE}")
    for block in model.blocks:
        if any(abs(part) > COORDINATE for corner in block.corners for part in corner):
            raise Refused(f"{block.name} lies beyond {COORDINATE} squares of the grid")
        if not is_convex(block.corners):
            raise Refused(f"{block.name} isn't convex on this grid: take other numbers, or greater ones")
    for one, other in combinations(model.blocks, 2):
        if not (one.fixed and other.fixed) and overlap(one.corners, other.corners):
            raise Refused(f"{one.name} and {other.name} overlap on this grid: take other numbers, or greater ones")
    return model


def main(words: list[str]) -> int:
    sway, joint, words = None, None, list(words)
    while words and words[0] in ("sway", "joint"):
        if len(words) < 3:
            raise Words("before the shape come `sway X Y` and `joint P Q`")
        if words[0] == "sway":
            sway = [whole(word, called, -1000, 1000) for word, called in zip(words[1:], "XY")]
        else:
            joint = [whole(words[1], "P", 0, 1000), whole(words[2], "Q", 1, 1000)]
        words = words[3:]
    if not words:
        raise Words("what is to be drawn?")
    sys.stdout.write(printed(checked(structure(drawing(words[0], words[1:]), sway, joint))))
    return 0


if __name__ == "__main__":
    sys.exit(ran(main, "draw", __doc__, sys.argv[1:], "the drawing"))
