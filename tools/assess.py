#!/usr/bin/env python3
"""Tries what makes a figure unsafe, as far as a drawing allows: each change alone, and some together.

    tools/assess.py MODEL [UNIT] [WORD VALUE ..] [one]

Nothing here is proved, but each figure has a certificate that `check` accepts. UNIT is what a force of 1 is in kN: with
it figures are in kN, of what all live loads come to; they are shares of the weight in a model with a sway, and else
factors. The script asks about MODEL, turns its live loads and its sway round, and then changes one thing at a time:

    live loads    each at the ends of the edge on which it acts, on both stones there; each without the others
    dead loads    times 0.9 and 1.1; without each that acts straight down; these sway too, if no load goes with a sway
    a sway        with a share of it upwards or downwards as well, also of dead loads that act straight down
    friction      times 5/6, and that of each material
    weights       times 0.9 and 1.1, and those of each material
    joints        shorter at each end

The last row makes the worst change of each kind together, or that one of each which is worst beside the others; changes
that cost nothing there are left out. Another set may cost more. Live loads aren't moved, nor asked one by one, with a
sway, if they are more than 6, or if they are more than two that don't act straight down, as parts of a pressure. Words,
in any order:

    order FILE      an order of building: the least of its stages
    inset D         by how much joints are shorter, in units of the grid; else a twentieth of the median joint, and at
                    most a quarter of the shortest one
    up R            the share upwards or downwards, as a part of that sideways: 1/2 if not given
    near NEAR       tells of corners that nearly meet, as tools/look.py does; else a twentieth of the shortest joint
    seconds S       the processor time of each row, 30 if not given; a row that takes longer is `not settled`
    files FOLDER    where models and certificates go, a new or an empty folder; else MODEL-assessed, in this folder
    travels         live loads that act straight down are moved along the whole structure, and the worst place is told
    one             the live loads don't turn round; neither do they where all act straight down

It prints Markdown. The rows of the table are sorted, the least first: the figure, and that of the live loads the other
way round; both as parts of those as drawn; and NAME, for FOLDER/NAME.toml with FOLDER/NAME.cert, and NAME-turned for
the other way. Figures are rounded down, and their fractions are in the certificates. If there are two shares
(docs/use/other_solvers.md), the figure is the one that is carried, of FOLDER/NAME-carried.toml. Then come the rows that
carry no less; whether a joint can slide, of which the first that can is told; what looks odd in the drawing; and the
mistakes that no script can try. Nothing here says that a structure is safe: docs/use/safety.md has the whole list.

The status is 0; 1 if MODEL falls under its dead loads; 70 where a row isn't settled, or if MODEL has no free block; 2
for wrong words; or that of the program, if it refuses MODEL. `esolver` is needed, as by tools/solve.py. Python 3.11.
"""
import shutil
import sys
from collections.abc import Iterator, Sequence
from dataclasses import replace
from fractions import Fraction
from math import floor, inf
from pathlib import Path

import look
from masonry import model as models, program, time_limit
from masonry.assessing import changes
from masonry.assessing.trials import LIMITED, Assessment, Row, Wanted, ordered, part_of, rounded, twentieth
from masonry.console import Progress, Refused, Words, plain, ran
from masonry.lp.programs import MISSING
from masonry.model import Bearing, Model
from masonry.numbers import decimal, number, whole
from masonry.questions.case import Case
from masonry.questions.results import Collapses, Stands, Unlimited, upper
from masonry.questions.slides import Pressing, Slide
from masonry.statics import Structure
from masonry.time_limit import Spent
from masonry.units import unit_of

SAME = 0.995  # what counts as no less, of what is carried as drawn
SHOWN = 6  # so many places of a kind in the drawing are listed
VALUES = "order", "inset", "up", "near", "seconds", "files"
ALONE = "travels", "one"


def asked(words: Sequence[str]) -> Wanted:
    """What the words ask for."""
    name, *rest = words
    wanted = Wanted(name, Path(f"{Path(name).stem}-assessed"))
    if rest and rest[0] not in (*VALUES, *ALONE):
        wanted = replace(wanted, unit=unit_of(rest.pop(0), "UNIT"))
    seen = set[str]()
    while rest:
        word = rest.pop(0)
        if word in seen or word not in (*VALUES, *ALONE) or word in VALUES and not rest:
            raise Words(f"after MODEL [UNIT] come {', '.join(VALUES)}, each once and with its value, "
                        "`travels` and `one`")
        seen.add(word)
        if word in ALONE:
            wanted = replace(wanted, one=True) if word == "one" else replace(wanted, travels=True)
        else:
            wanted = with_value(wanted, word, rest.pop(0))
    return wanted


def with_value(wanted: Wanted, word: str, value: str) -> Wanted:
    if word == "order":
        return replace(wanted, order=value)
    if word == "files":
        return replace(wanted, folder=Path(value))
    if word == "seconds":
        return replace(wanted, seconds=whole(value, "S", 1, 10**5))
    if word == "up":
        return replace(wanted, up=decimal(value, "R", 0, 10))
    length = decimal(value, "D" if word == "inset" else "NEAR", Fraction(1, 10**6), 10**6)
    return replace(wanted, inset=length) if word == "inset" else replace(wanted, near=length)


# What is printed


def table(found: Assessment) -> Iterator[str]:
    """The rows that carry less, or aren't settled: the first is as drawn, the last all together."""
    two = len(found.sides) > 1
    less = sorted((row for row in found.rows if not row.why and row.part(found.drawn) < SAME),
                  key=lambda row: (row.part(found.drawn), min(end.factor() for end in row.ends if end)))
    yield "| What is changed | Figure |" + (" The other way |" if two else "") + " Of as drawn | Files |"
    yield "|---|---|" + ("---|" if two else "") + "---|---|"
    for row in [found.drawn, *less, *(row for row in found.rows if row.why), *found.last]:
        said = [end.said() if end else "-" for end in row.ends]
        cells = [row.said, *said, row.why or of_drawn(row, found.drawn), row.files()]
        yield f"| {' | '.join(cell.replace('|', '/') for cell in cells)} |"


def of_drawn(row: Row, drawn: Row) -> str:
    """The ends of a row as parts of those as drawn."""
    parts = [part_of(end, whole) for end, whole in zip(row.ends, drawn.ends) if end and whole]
    return " and ".join("-" if part == inf else "from no limit" if part == LIMITED else f"{floor(100 * part + 1e-9)} %"
                        for part in parts)


def no_less(found: Assessment) -> Iterator[str]:
    own = {row.name for family in found.families for change, row in family if not change.joins}
    same = [row for row in found.rows if not row.why and row.part(found.drawn) >= SAME and row.name not in own]
    if same:
        yield ""
        yield "No less, or by less than half a percent: " + "; ".join(
            f"{row.said} ({' and '.join(end.said() for end in row.ends if end)})" for row in same) + "."


def sliding(found: Assessment) -> Iterator[str]:
    """Whether a joint can slide to either side: the first that can, no matter from which factor on."""
    for end, way, name in zip(found.drawn.ends, ("", " the other way round"), ("as-drawn", "as-drawn-turned")):
        if end is None:
            continue
        top = Fraction(0) if isinstance(end.found, Stands) else \
            None if isinstance(end.found, Unlimited) else upper(end.found)
        file = str(found.wanted.folder / f"{name}.toml")
        slides: list[Slide] = []
        try:
            with time_limit.within(found.wanted.seconds):
                structure = Case(file, "", known=found.known).structure
                slides = first_slide(structure, top)
        except (Spent, Refused, ArithmeticError):
            yield f"- Whether a joint can slide{way} isn't settled."
            continue
        if not slides:
            yield f"- No joint can slide{way}, with this drawing and this friction."
        else:
            slide = min(slides, key=lambda one: one.least)
            own, least = slide.thrusts[slide.joint], rounded(float(slide.least * end.times) * end.worth)
            yield (f"- The joint of {own.first} and {own.second} can slide{way} from {least} on, so the figure as "
                   "drawn is an upper bound only. Joints behind it in the table weren't asked: tools/solve.py slides.")


def first_slide(structure: Structure, top: Fraction | None) -> list[Slide]:
    """How the first joint that can slide does, to one side or to both."""
    pressing = Pressing(structure, top)
    for j in range(len(pressing.joints)):
        if slides := [one for sign in (1, -1) if (one := pressing.slide(j, sign))]:
            return slides
    return []


def odd(found: Assessment) -> Iterator[str]:
    """What looks odd in the drawing."""
    joint = changes.lengths(found.bearings)[0]
    near = found.wanted.near or twentieth(joint)
    found_of: dict[str, list[str]] = {}
    for line in look.looked(found.model, found.table, near, Fraction(1)):
        word, *rest = line.split()
        if word in ODD:
            found_of.setdefault(ODD[word], []).append(" ".join(rest))
    for said, places in found_of.items():
        more = f" and {len(places) - SHOWN} more (tools/look.py)" if len(places) > SHOWN else ""
        yield f"- {said}: {', '.join(places[:SHOWN])}{more}."
    yield from (f"- {line}." for line in changes.oddities(found.model))
    if joint:
        yield f"- The shortest joint is {number(joint)} units long. Draw on two finer grids (docs/use/reading.md)."


ODD = {"near": "Corners that nearly meet a body (body, other body, place, gap)",
       "touch": "Bodies that share a corner alone, which carries nothing in the model",
       "single": "Joints of one bearing",
       "nothing": "Blocks whose weight no bearing can carry: nothing",
       "apart": "Bodies that no joints tie to a fixed one"}
# What no script has tried: always, with a sway, without one, with several live or dead loads, with a live load that
# acts straight up or down, and with live loads that it neither moved nor asked alone.
ALWAYS = """the ground under the toe, and the strength of stones at this thrust: docs/use/safety.md
supports that give way, drawn as fixed: docs/worked/bridge.md, step 6
stones that topple one on another down a slope: docs/use/published.md, "Columns that topple"
slabs, lintels and corbels that break in bending: docs/use/scope.md, "What is left out"
leaves of a wall, rings of an arch, and courses, drawn as one: docs/use/scope.md, "What is left out"
failure out of the plane of the drawing: docs/worked/section.md
water behind a blocked drain, and its uplift: docs/worked/wall.md, step 10
wind, for which a sway doesn't stand, and roofs that it lifts
cramps, ties and fill that may be missing, where blocks are drawn as one
the slice: what part of a load falls on it, and how wide the stone is under a load"""
SWAYING = """earth, fill and water, which push harder in an earthquake: tools/earth.py quake
floors whose weight this wall must hold alone: docs/worked/section.md, step 3"""
STILL = """an earthquake: docs/use/scope.md, "What a sway means, and what it doesn't"
an earth that is weaker than its pressure says: docs/worked/wall.md, step 11"""
SETS = """sets of live loads without the rest, as half of a crowd or of snow: docs/use/safety.md, "Sets of live loads"
live loads that turn round while others keep their direction"""
APART = """dead loads one by one a tenth less or more, and several missing at once, as the parts of one floor"""
FARTHER = """a load that travels farther than to the next block: the word `travels`, or tools/travel.py"""
DOWN = """loads that travel together, as axles do: tools/travel.py
two loads together, in any proportion: tools/region.py"""
STAYS = """a live load at any other place, or without the others: none was moved or asked alone here"""


def untried(model: Model, bearings: Sequence[Bearing], travels: bool) -> Iterator[str]:
    """The mistakes that no script has tried."""
    live, dead = model.live_loads(), [load for load in model.loads if load.kind == "dead"]
    for lines in (ALWAYS, SWAYING if any(model.sway or ()) else STILL, SETS if live[1:] else "",
                  APART if dead[1:] else "", "" if travels or not any(map(changes.hangs, live)) else FARTHER,
                  DOWN if any(not load.force[0] for load in live) else "",
                  STAYS if live and not changes.one_by_one(model) else ""):
        yield from (f"- {line}." for line in lines.splitlines())
    yield from (f"- {line}." for line in changes.left_out(model, bearings, travels))


def heading(found: Assessment) -> str:
    what = "Shares of the weight" if any(found.model.sway or ()) else \
        f"In kN, of all live loads together, where a force of 1 is {float(found.wanted.unit or 0):.6g} kN" \
        if found.in_kn else "Factors of the live loads" if found.model.has_live() else "No live load is listed"
    return (f"{what}. Each is an upper bound, rounded down, with no safety in it. Files: "
            f"{found.wanted.folder}/NAME.toml and .cert" + ("; NAME-turned the other way." if found.sides[1:] else "."))


def lines_of(found: Assessment) -> Iterator[str]:
    yield from [f"## {found.wanted.name}", "", heading(found), ""]
    yield from [*table(found), *no_less(found)]
    if not any(end is None or isinstance(end.found, Collapses) for end in found.drawn.ends):
        yield from ["", "Sliding:", "", *sliding(found)]
    yield from ["", "In the drawing:", "", *odd(found)]
    yield from ["", "What no script has tried (docs/use/safety.md has the list):", ""]
    yield from untried(found.model, found.bearings, found.wanted.travels)


def assess(words: list[str]) -> int:
    wanted = asked(words)
    contacts, model = program.answer("contacts", wanted.name), models.read(wanted.name)
    if not model.free_blocks():
        raise Refused(f"{plain(wanted.name)}: no block is free")
    if wanted.order:
        ordered(model, wanted.order)
    if shutil.which("esolver") is None:
        raise Refused(MISSING)
    with Progress("assess") as progress:
        found = Assessment(wanted, model, contacts, progress)
        prepared(wanted.folder)
        stands = found.all()
        print(*lines_of(found), sep="\n", flush=True)
    if not stands and not found.drawn.why:
        return 1
    return 70 if any(row.why for row in (found.drawn, *found.rows, *found.last)) else 0


def prepared(folder: Path) -> None:
    """Makes the folder of the files, which must be new or empty."""
    try:
        folder.mkdir(parents=True, exist_ok=True)
        if any(folder.iterdir()):
            raise Refused(f"{plain(folder)}: there are files in it; name another folder after `files`")
    except (OSError, ValueError) as fault:
        raise Refused(f"{plain(folder)}: {getattr(fault, 'strerror', None) or fault}") from None


def main(words: list[str]) -> int:
    return ran(assess, "assess", __doc__, words)


if __name__ == "__main__":
    sys.exit(main(sys.argv[1:]))
