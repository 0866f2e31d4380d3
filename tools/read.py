#!/usr/bin/env python3
"""Reads a certificate by joints and blocks: thrusts, hinges, slides and turning centres.

    tools/read.py MODEL CERT [PART] [kN FORCE] [m LENGTH]

Nothing here is proved. CERT is a certificate that `check` accepts, or an answer of `range`. The program prints `table
MODEL CERT`; the values that are computed from it here are rounded to six digits. A joint is what two bodies share; it
has one bearing or two. The script prints these lines:

    factor N/D = DECIMAL
    joint FIRST SECOND N .. T .. force FX FY at X Y way W
    joint FIRST SECOND opening .. slide .. WORD
    closed FIRST/SECOND ..
    block NAME turns about X Y at R
    together NAME NAME .. turn about X Y at R
    still NAME ..

The first `joint` line is of the forces. N presses and T acts along the joint, on the later body, along the tangent (TX,
TY) of the table of contacts. The force (FX, FY) is both together, to the right and upwards. The thrust is at X Y, the
mean of the bearings weighted by their normal forces. W is how far that is on the way from the first bearing to the
second: 0 and 1 are the ends of the joint. A joint without a force has `bears nothing` instead. In the ray of
`unbounded` the same lines begin with `ray`.

The second `joint` line is of the motion, with an opening and a slide for each bearing. WORD is `hinge X Y` where the
joint turns about that bearing, `slides` where it opens no more than its friction demands of a slide, and `opens`
otherwise. One line names all joints that stay closed. Then come the motions of the blocks, counter-clockwise where R is
above 0; blocks that move as one body share a line with `together`. A block that doesn't turn `moves U V`. One line
names all blocks that are still. Only the signs and ratios of a motion matter.

If tools/solve.py has found two shares with CERT, which says that the dead loads stand, the lines of forces are those of
the share that is carried, behind the line `carried N/D = DECIMAL`, in the unit of force of MODEL. Those of the motion
are of the share that isn't, behind `beyond N/D = DECIMAL`. Both models must be those of shares of MODEL.

If the first lines of MODEL say that a factor is dead, `with the dead factor N/D = DECIMAL` is the one of the drawing.

For an answer of `range` the first line is `range N/D = DECIMAL to N/D = DECIMAL`. Then come the line `greatest` and
the lines of that end, and the line `least` and the lines of the other one, whose factor is below 0.

An opening or a slide counts as none, and is printed as 0, if it is at most this PART of the greatest opening or slide
of a joint. PART is a millionth, 0.000001, if it isn't given. Beside a slide that counts, a small opening counts too,
since friction demands it. All else follows. A joint stays closed if nothing moves at its bearings. Blocks move as one
if nothing moves at the bearings between them, of which there are at least two; or if all their corners move alike.
Blocks are still if they move as one with a fixed body.

With `kN FORCE` forces are in kN: FORCE is what a force of 1 of the structure is, as docs/use/formats.md works it out
for a slice of some depth. With `m LENGTH` lengths are in metres. The first line says so. The model of a share, and one
with shorter joints, says in its first line by what all its forces and lengths are multiplied: these numbers are divided
by it. Without `kN` and `m` they aren't, and the line `multiplied` says what to divide by.

If a block turns at a rate above a million, all rates are divided by the greatest one, so that the fastest block turns
at 1 or -1. If no block turns, the same holds for the greatest velocity.

The exit status is that of the program. It is 70 if a file can't be read or the program can't be run, and 2 if the words
make no sense. Python 3.11 or later. docs/use/reading.md explains the lines.
"""
import re
import sys
import tempfile
from collections.abc import Iterable, Sequence
from dataclasses import dataclass, field, replace
from fractions import Fraction
from math import ceil, floor
from pathlib import Path

from masonry.console import Refused, Words, ran, shown
from masonry.model import Bearing, Block, Model, bearings_of, multiple, printed, put, read, text_of, write
from masonry.model import share as share_of
from masonry.motion import Motion, Move, joints_of
from masonry.numbers import decimal, nine_digits, number, ratio, with_decimal
from masonry.program import answer
from masonry.units import Dead, Scale, Units, dead_of, given_of, scale_of

PART = "0.000001"
Force = tuple[Fraction, Fraction]


@dataclass
class Table:
    """What `table` prints: bearings, lists of forces by their word, and moves by block."""
    bearings: list[Bearing]
    factor: Fraction | None = None
    forces: dict[str, list[Force]] = field(default_factory=dict)
    moves: dict[str, Move] = field(default_factory=dict)


@dataclass(frozen=True)
class Asked:
    """How a certificate is to be read: which part of the greatest movement counts as none, in which units, and which
    factor of a drawing is dead in the model."""
    part: float
    units: Units
    dead: Dead = Dead()


def table_of(model: str | Path, certificate: str | Path) -> Table:
    said = answer("table", model, certificate)
    table, word = Table(bearings_of(said)), "joint"
    for line in said.splitlines():
        head, *items = line.split()
        if head == "factor":
            table.factor = Fraction(items[0])
        elif head == "ray":
            word = "ray"
        elif head == "force":
            table.forces.setdefault(word, []).append((Fraction(items[1]), Fraction(items[2])))
        elif head == "move":
            u, v, turn = map(int, items[1:])
            table.moves[items[0]] = u, v, turn
    return table


def thrust(bearings: Sequence[Bearing], forces: Sequence[Force], units: Units) -> str:
    """What a joint bears: its normal and its tangential force, the place of both, and how far along it that is."""
    parts = [bearing.parts(*force) for bearing, force in zip(bearings, forces)]
    presses, slides = (sum((part[axis] for part in parts), Fraction(0)) for axis in (0, 1))
    if presses == 0:
        return "bears nothing"
    at = [sum((part[0] * bearing.at[axis] for part, bearing in zip(parts, bearings)), Fraction(0)) / presses
          for axis in (0, 1)]
    way = f" way {number(parts[1][0] / presses, 1e-6)}" if len(parts) == 2 else ""
    length, unit = bearings[0].length(), float(units.force)
    fx, fy = (number(units.force * sum(force[axis] for force in forces)) for axis in (0, 1))
    return (f"N {number(unit * float(presses) / length)} T {number(unit * float(slides) / length)} "
            f"force {fx} {fy} at {units.point(at)}{way}")


def lines_of(table: Table, blocks: Sequence[Block], asked: Asked, sign: int = 1) -> Iterable[str]:
    """The lines of a certificate. In the reversed model the sign of the factor is -1."""
    if table.factor is not None:
        yield f"factor {with_decimal(sign * table.factor)}"
        if asked.dead.factor and asked.dead.sign:
            yield f"with the dead factor {with_decimal(asked.dead.of(sign * table.factor))}"
    yield from thrusts(table, asked.units)
    yield from moving(table, blocks, asked)


def thrusts(table: Table, units: Units) -> Iterable[str]:
    """The lines of the forces."""
    joints = joints_of(table.bearings)
    for word, forces in table.forces.items():
        for (first, second), indices in joints.items():
            bears = thrust([table.bearings[k] for k in indices], [forces[k] for k in indices], units)
            yield f"{word} {first} {second} {bears}"


def moving(table: Table, blocks: Sequence[Block], asked: Asked) -> Iterable[str]:
    """The lines of the motion."""
    if table.moves:
        yield from Motion(table.bearings, table.moves, blocks, asked.part, asked.units).lines()


# Two shares


@dataclass(frozen=True)
class Share:
    """The model of a share, its certificate, the share, and by what its forces are multiplied."""
    model: str
    certificate: str
    share: Fraction
    times: int


def share_beside(word: str, model: Model, dead: Dead, certificate: str) -> Share | None:
    """The share that tools/solve.py has written beside a certificate of a model, in which `dead` is; None if there is
    none, or if it is one of another model."""
    stem = f"{certificate.removesuffix('.cert')}-{word}"
    try:
        text = text_of(stem + ".toml")
        text_of(stem + ".cert")
        found = dead_of(text)
        share = (found.factor - dead.factor) * dead.sign
        made = share_of(model, share.numerator, share.denominator)
    except Refused:
        return None
    if found.sign or not text.endswith("\n" + printed(made)):
        return None
    return Share(stem + ".toml", stem + ".cert", share, multiple(model, made, share.denominator))


def shares_beside(model: Model, dead: Dead, certificate: str) -> list[Share]:
    """The share that is carried and the one that isn't, if a certificate only says that the dead loads stand, and both
    have been found with it; or none."""
    if not model.has_live() or not text_of(certificate).startswith("stands\n"):
        return []
    found = [share_beside(word, model, dead, certificate) for word in ("carried", "beyond")]
    return [one for one in found if one] if None not in found else []


def lines_of_shares(shares: Sequence[Share], blocks: Sequence[Block], asked: Asked) -> Iterable[str]:
    """The forces of the share that is carried, in the unit of force of the model itself, and the motion of the other
    one."""
    carried, beyond = shares
    forces, motion = (table_of(one.model, one.certificate) for one in shares)
    yield f"carried {ratio(carried.share)} = {nine_digits(carried.share, floor)}"
    yield from thrusts(forces, replace(asked.units, force=asked.units.force / carried.times))
    yield f"beyond {ratio(beyond.share)} = {nine_digits(beyond.share, ceil)}"
    yield from moving(motion, blocks, asked)


def range_of(name: str) -> str | None:
    """The text of an answer of `range`, or None."""
    try:
        text = text_of(name)
    except Refused:
        return None
    return text if re.match(r"range \S+ \S+\n", text) else None


def end_of(value: str, name: str) -> str:
    """An end of a range, a fraction or `unlimited`."""
    if value != "unlimited" and not re.fullmatch(r"-?[0-9]+/[1-9][0-9]*", value, re.ASCII):
        raise Refused(f"{name}: an end of a range can't be {shown(value)}")
    return with_decimal(value)


def lines_of_range(name: str, model: Model, certificate: str, said: str, asked: Asked) -> Iterable[str]:
    """The lines of an answer of `range`."""
    head, _, ends = said.partition("\n")
    least, greatest = head.split()[1:]
    yield f"range {end_of(least, certificate)} to {end_of(greatest, certificate)}"
    for word, text, of, sign in zip(("greatest", "least"), ends.split("reversed\n"), (model, model.turned()), (1, -1)):
        with tempfile.TemporaryDirectory() as folder:
            end, turned = Path(folder, "certificate"), Path(folder, "model.toml")
            put(end, text)
            write(turned, of)
            table = table_of(name if sign == 1 else turned, end)
        yield word
        yield from lines_of(table, model.blocks, asked, sign)


# The words


def units_of(words: list[str], scale: Scale) -> tuple[Units, list[str]]:
    """The units that these words ask for, and the lines that say so."""
    given = given_of(words, "MODEL CERT [PART]")
    lines = given.lines()
    if given.force is None and scale.forces != 1:
        lines.append(f"multiplied forces {scale.forces}")
    if given.length is None and scale.lengths != 1:
        lines.append(f"multiplied lengths {scale.lengths}")
    return given.units(scale), lines


def main(words: list[str]) -> int:
    if len(words) < 2:
        raise Words("the words are MODEL CERT [PART] [kN FORCE] [m LENGTH]")
    name, certificate, *rest = words
    given = rest[:1] if rest and rest[0] not in ("kN", "m") else []
    part = decimal((given or [PART])[0], "PART", 0)
    if part >= 1:
        raise Words(f"PART must be less than 1, and is {shown(given[0])}")
    text = text_of(name)
    units, lines = units_of(rest[len(given):], scale_of(text))
    asked = Asked(float(part), units, dead_of(text))
    if said := range_of(certificate):
        found = lines_of_range(name, read(name), certificate, said, asked)
    else:
        table, model = table_of(name, certificate), read(name)
        shares = shares_beside(model, asked.dead, certificate)
        found = lines_of_shares(shares, model.blocks, asked) if shares else lines_of(table, model.blocks, asked)
    for line in lines:
        print(line)
    for line in found:
        print(line)
    return 0


if __name__ == "__main__":
    sys.exit(ran(main, "read", __doc__, sys.argv[1:], "the table and the motion"))
