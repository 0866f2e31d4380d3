#!/usr/bin/env python3
"""Prints a model that is made from another one: turned round, in part, at a share, with other loads or shorter joints.

    tools/variant.py reversed MODEL
    tools/variant.py stage MODEL ORDER K
    tools/variant.py direction MODEL I J M N
    tools/variant.py share MODEL N D
    tools/variant.py without MODEL NAME ..
    tools/variant.py with MODEL KIND BLOCK X Y FX FY
    tools/variant.py inset MODEL D [M]
    tools/variant.py short MODEL TOLERANCE
    tools/variant.py mirrored MODEL

Nothing here is proved. Each form prints one model. Those of the first four are models of certificates that aren't of
the drawing itself, so that `check` and `table` can judge them:

- `reversed`: the force of each live load and the sway have the opposite sign. This is the model of the least side of a
  range.
- `stage`: all fixed bodies, the blocks of the first K lines of ORDER, and the loads on these. This is the model of
  stage K of an order of building.
- `direction`: the forces of the live loads I and J, by their numbers from 1 among all loads of the file, are multiplied
  by M and by N. The other live loads and the sway are left out. This is the model of the direction (M, N).
- `share`: D times the dead loads and N times the live ones, the sway with them, are dead. There are no live loads. If
  it stands, the structure carries N/D of its live loads. docs/use/formats.md says how the sway becomes forces. The
  first line says by what all forces are multiplied; tools/read.py divides by it. The second one names the share.

The others are for questions of your own:

- `without`: the blocks and fixed bodies of these names, and the loads on them, are left out: a centring that is struck,
  a chimney that is taken down.
- `with`: one more load, `dead` or `live`, on a free block, at (X, Y), with the force (FX, FY). A model whose first line
  says that forces or lengths are multiplied is refused: add the load first.
- `inset`: each joint is shorter by D at each end, and by a little more where that is needed to end on a point of the
  grid. D is a decimal number or a fraction, in units of the grid of MODEL. Corners are cut for it, of fixed bodies too.
  The grid of the new model is finer, M times if you give M. Else the script takes the least M up to 1,000 with which no
  joint loses more than a twentieth more than D, or the best that the limits of a model allow. The first line says by
  what forces and lengths are multiplied. Standard error says what was taken. docs/use/scope.md says what this is for:
  stones that crush.
- `short`: each joint lies along a vector of whole numbers up to 12, or a multiple of it, if no corner must move farther
  for that than TOLERANCE, in units of the grid. So certificates get shorter numbers, where a fine grid is too wide. It
  is another drawing, and its factors are a little different. A load at a corner of its block goes with it. Standard
  error says how many joints were turned, and how far the farthest corner moved.
- `mirrored`: left and right change places, at x = 0, with all loads and the sway. All answers stay the same. So
  tools/earth.py, which lays earth to the left, can lay it to the right: mirror the model, lay the earth, and mirror it
  back.

All else stays as it is and in its order. Comments are lost, but for such first lines. MODEL must be a model that the
program accepts. If the words make no sense, the exit status is 2. It is 70 if MODEL is no model, if a file can't be
read, if a name or a number names nothing, if a limit of the program is passed, or if nothing is left of a joint.
`inset` asks the program for the contacts; if the program refuses, its status is that of the script. Python 3.11 or
later.
"""
import sys
from collections.abc import Callable
from dataclasses import dataclass, replace
from fractions import Fraction

from masonry.console import Refused, Words, plain, ran, shown
from masonry.directions import short
from masonry.inset import inset
from masonry.model import COORDINATE, FORCE, LOADS, Load, Model, bearings_of, multiple, printed, read, share, text_of
from masonry.numbers import decimal, fraction, number, whole
from masonry.program import answer
from masonry.units import Dead, Scale, dead_of, scale_of

MOST = 10**9  # a number of a share or of a direction


def stage(model: Model, order: str, count: int) -> Model:
    lines = text_of(order).splitlines()
    if not 0 <= count <= len(lines) or not set(lines[:count]) <= {block.name for block in model.free_blocks()}:
        raise Refused(f"{order}: no {count} lines of free blocks")
    return model.built(lines[:count])


def mirrored(model: Model) -> Model:
    """The model with left and right exchanged. The corners, taken from the last to the first, stay counterclockwise."""
    sway = model.sway and [-model.sway[0], model.sway[1]]
    blocks = [replace(block, corners=[[-x, y] for x, y in reversed(block.corners)]) for block in model.blocks]
    loads = [replace(load, at=[-load.at[0], load.at[1]], force=[-load.force[0], load.force[1]]) for load in model.loads]
    return replace(model, sway=sway, blocks=blocks, loads=loads)


def direction(model: Model, i: int, j: int, m: int, n: int) -> Model:
    for number in (i, j):
        if not 1 <= number <= len(model.loads) or model.loads[number - 1].kind != "live" or i == j:
            raise Refused(f"no pair {number}")
    times = {i: m, j: n}
    loads = [load.times(times.get(number, 1)) for number, load in enumerate(model.loads, 1)
             if load.kind != "live" or number in times]
    return replace(model, sway=None, loads=loads)


def without(model: Model, names: list[str]) -> Model:
    there = {block.name for block in model.blocks}
    for name in names:
        if name not in there:
            raise Refused(f"no block is named {shown(name)}")
    return replace(model, blocks=[block for block in model.blocks if block.name not in names],
                   loads=[load for load in model.loads if load.block not in names])


def with_load(name: str, words: list[str]) -> Model:
    kind, block = words[:2]
    if kind not in ("dead", "live"):
        raise Words(f"KIND must be dead or live, and is {shown(kind)}")
    x, y = (whole(word, called, -COORDINATE, COORDINATE) for word, called in zip(words[2:4], ("X", "Y")))
    u, v = (whole(word, called, -FORCE, FORCE) for word, called in zip(words[4:], ("FX", "FY")))
    model, scale = read(name), scale_of(text_of(name))
    if scale != Scale():
        raise Refused(f"{plain(name)}: its first line says that forces or lengths are multiplied, so (X, Y) and "
                      "(FX, FY) would be others than those of the structure: add the load before that")
    if block not in (one.name for one in model.free_blocks()):
        raise Refused(f"no free block is named {shown(block)}")
    if len(model.loads) == LOADS:
        raise Refused(f"the model has {LOADS} loads already")
    return replace(model, loads=[*model.loads, Load(block, kind, [x, y], [u, v])])


# The forms. Each reads its words, and then the file.

Made = tuple[Model, Scale | None]


def of_stage(name: str, rest: list[str]) -> Made:
    count = whole(rest[1], "K", 0, MOST)
    return stage(read(name), rest[0], count), None


def of_direction(name: str, rest: list[str]) -> Made:
    i, j, m, n = (whole(word, called, -MOST, MOST) for word, called in zip(rest, "IJMN"))
    return direction(read(name), i, j, m, n), None


def of_share(name: str, rest: list[str]) -> Made:
    n, d = whole(rest[0], "N", -MOST, MOST), whole(rest[1], "D", 1, MOST)
    model = read(name)
    made = share(model, n, d)
    return made, Scale(Fraction(multiple(model, made, d)))


def of_inset(name: str, rest: list[str]) -> Made:
    distance = decimal(rest[0], "D", Fraction(1, 10**6), COORDINATE)
    grid = whole(rest[1], "M", 1, COORDINATE) if len(rest) == 2 else None
    found = inset(read(name), bearings_of(answer("contacts", name)), distance, grid)
    for line in found.lines:
        print(line, file=sys.stderr)
    return found.model, found.scale


def of_short(name: str, rest: list[str]) -> Made:
    made, found = short(read(name), decimal(rest[0], "TOLERANCE", 0, COORDINATE))
    print(found.line(), f"the farthest corner moved by {number(found.moved)}", sep="\n", file=sys.stderr)
    return made, None


@dataclass(frozen=True)
class Form:
    """What follows MODEL, `..` where there may be more; and the model that a file and these words make, with what its
    forces and lengths are multiplied by if it is to say so."""
    takes: str
    made: Callable[[str, list[str]], Made]

    def fits(self, count: int) -> bool:
        """Whether so many words may follow MODEL."""
        takes = self.takes.split()
        least = sum(not word.startswith(("[", "..")) for word in takes)
        return least <= count and (".." in takes or count <= len(takes))


FORMS = {"reversed": Form("", lambda name, rest: (read(name).turned(), None)), "stage": Form("ORDER K", of_stage),
         "direction": Form("I J M N", of_direction), "share": Form("N D", of_share),
         "without": Form("NAME ..", lambda name, rest: (without(read(name), rest), None)),
         "with": Form("KIND BLOCK X Y FX FY", lambda name, rest: (with_load(name, rest), None)),
         "inset": Form("D [M]", of_inset), "short": Form("TOLERANCE", of_short),
         "mirrored": Form("", lambda name, rest: (mirrored(read(name)), None))}


def in_form(form: str, words: list[str]) -> str:
    """The text of the model that these words, from MODEL on, ask for."""
    name, *rest = words
    model, more = FORMS[form].made(name, rest)
    if not model.free_blocks():
        raise Refused("no free block is left, so there is nothing that could fall")
    text = text_of(name)
    scale = scale_of(text).times(more or Scale())
    first = scale.line() if more or scale != Scale() else ""
    return first + dead_in(form, dead_of(text), rest).line() + printed(model)


def dead_in(form: str, dead: Dead, rest: list[str]) -> Dead:
    """Which factor of a drawing is dead in a model that is made from one in which `dead` is."""
    if form == "share":
        return dead.shared(fraction(rest[0], rest[1]))
    return Dead() if form == "direction" else dead.turned() if form == "reversed" else dead


def main(words: list[str]) -> int:
    form, *rest = words
    if form not in FORMS:
        raise Words(f"no form {shown(form)}; there are {' '.join(FORMS)}")
    if not rest or not FORMS[form].fits(len(rest) - 1):
        raise Words(f"{form} takes MODEL {FORMS[form].takes}".rstrip())
    sys.stdout.write(in_form(form, rest))
    return 0


if __name__ == "__main__":
    sys.exit(ran(main, "variant", __doc__, sys.argv[1:], "the new model"))
