"""What a drawing carries, and what it carries after changes: one row for each, to one side or to both.

Nothing here is proved, but each answer has a certificate that `check` accepts.
"""
from collections.abc import Iterator, Sequence
from dataclasses import dataclass, field
from fractions import Fraction
from math import floor, inf, log10
from pathlib import Path
from tempfile import TemporaryDirectory

from masonry import model as models, time_limit
from masonry.assessing import changes
from masonry.assessing.changes import Change, Drawing, Wishes
from masonry.console import Ended, Progress, Refused
from masonry.model import Model
from masonry.questions.case import Case, Known
from masonry.questions.ranges import put
from masonry.questions.results import Collapses, Loaded, Stands, Unlimited, is_whole, lower
from masonry.questions.voice import Silent
from masonry.time_limit import Spent

LIMITED = 0.5  # stands for a part of what has no limit


@dataclass(frozen=True)
class Wanted:
    """What is asked: about a model, with the kN of a force of 1, an order of building, by how much joints are shorter
    and how near is nearly, in units of the grid, the share up or down, the seconds of a row, where files go, and
    whether to one side alone, and whether loads travel."""
    name: str
    folder: Path
    unit: Fraction | None = None
    order: str | None = None
    inset: Fraction | None = None
    near: Fraction | None = None
    up: Fraction = Fraction(1, 2)
    seconds: int = 30
    one: bool = False
    travels: bool = False


def twentieth(joint: float) -> Fraction:
    """A twentieth of a length, in two digits."""
    return Fraction(f"{max(joint, 1e-6) / 20:.1e}")


@dataclass(frozen=True)
class End:
    """What is carried to one side: the answer, what its factor times is a factor of the structure as drawn, and the
    figure for a factor of 1."""
    found: Loaded | Stands
    times: Fraction
    worth: float

    def factor(self) -> float:
        """What is carried at least."""
        if isinstance(self.found, Collapses):
            return 0.0
        low = lower(self.found) if not isinstance(self.found, Stands) else None
        return inf if low is None else float(low * self.times)

    def said(self) -> str:
        if isinstance(self.found, (Collapses, Stands)):
            return "falls" if isinstance(self.found, Collapses) else "stands"
        return "no limit" if self.factor() == inf else rounded(self.factor() * self.worth)


@dataclass
class Row:
    """A drawing that was asked about, with an end for each side, None where it wasn't asked or isn't settled. `why`
    says why it isn't."""
    name: str
    said: str
    ends: list[End | None] = field(default_factory=list)
    why: str = ""

    def files(self) -> str:
        """What its files are called; `-turned` are those of the other way."""
        return f"{self.name}-turned" if self.ends[0] is None and not self.why else self.name

    def part(self, drawn: "Row") -> float:
        """The least of its ends, as a part of the end to the same side as drawn."""
        return min((part_of(end, whole) for end, whole in zip(self.ends, drawn.ends) if end and whole), default=inf)


def part_of(end: End, drawn: End) -> float:
    if drawn.factor() == inf:
        return 0.0 if end.factor() == 0 else 1.0 if end.factor() == inf else LIMITED
    return end.factor() / drawn.factor() if drawn.factor() else 1.0


def rounded(value: float) -> str:
    """Four digits, rounded down."""
    places = max(0, 3 - floor(log10(value))) if value > 0 else 0
    return f"{floor(value * 10**places * (1 + 1e-12)) / 10**places:.{places}f}"


def ordered(model: Model, order: str) -> list[str]:
    """The names of the blocks in an order of building."""
    names = models.text_of(order).splitlines()
    if len(set(names)) < len(names) or not set(names) <= {block.name for block in model.free_blocks()}:
        raise Refused(f"{order}: each line names another free block")
    return names


class Assessment:
    """The rows of a model, as they are settled."""

    def __init__(self, wanted: Wanted, model: Model, table: str, progress: Progress) -> None:
        self.wanted, self.model, self.table, self.progress = wanted, model, table, progress
        self.bearings = models.bearings_of(table)
        self.known, self.rows, self.last = Known(table), list[Row](), list[Row]()
        turns = not wanted.one and (any(model.sway or ()) or any(load.force[0] for load in model.live_loads()))
        self.sides = [model, model.turned()] if turns else [model]
        self.in_kn = wanted.unit is not None and not any(model.sway or ()) and Drawing(model).live() > 0
        self.families: list[list[tuple[Change, Row]]] = []
        self.drawn = Row("as-drawn", "as drawn")

    def row(self, name: str, said: str, made: Sequence[Change], sides: Sequence[int] = (0, 1),
            folder: Path | None = None) -> Row:
        """Asks about the drawing after these changes."""
        row = Row(name, said, [None for _ in self.sides])
        known = self.known if all(change.only_live for change in made) else Known()
        try:
            with time_limit.within(self.wanted.seconds):
                for side in range(len(self.sides)):
                    if side in sides:
                        stem = (folder or self.wanted.folder) / (name + ("-turned" if side else ""))
                        row.ends[side] = self.end(stem, said, self.drawing(made, side), known)
        except Spent:
            row.why = f"not settled in {self.wanted.seconds} s"
        except (Refused, ArithmeticError, Ended) as fault:
            row.why = f"not settled: {fault}"
        return row

    def drawing(self, made: Sequence[Change], side: int) -> Drawing:
        drawing = Drawing(self.sides[side])
        for change in made:
            drawing = change.made(drawing)
        return drawing

    def end(self, stem: Path, said: str, drawing: Drawing, known: Known) -> End:
        put(f"{stem}.toml", drawing.model, drawing.scale)
        case = Case(f"{stem}.toml", f"{stem}.cert", lambda stage: self.progress(f"{said[:60]}: {stage}"), Silent(),
                    known=known)
        found = case.settled_load() if drawing.model.has_live() else case.settled_stand()
        if not isinstance(found, Stands) and not is_whole(found):
            raise Refused("no two shares")
        return End(found, drawing.times, drawing.live() * float(self.wanted.unit or 0) if self.in_kn else 1.0)

    def stages(self, name: str, order: str) -> Iterator[Row]:
        """The stages of an order but for the finished structure."""
        names = ordered(self.model, order)
        for count in range(1, len(names) + (len(names) < len(self.model.free_blocks()))):
            said = f"while it is built: stage {count} of {Path(order).name}"
            yield self.row(f"{name}-{count}", said, [stage(names[:count])])

    def all(self) -> bool:
        """Asks about all drawings. Says whether the first one stands."""
        self.drawn = self.row(self.drawn.name, self.drawn.said, [])
        if any(end is None or isinstance(end.found, Collapses) for end in self.drawn.ends):
            return False
        for family in changes.families(self.model, self.bearings, self.wishes()):
            asked = [(change, self.row(change.name, change.said, [change])) for change in family]
            told = self.worst_of([row for change, row in asked if change.travels])
            self.families.append(asked)
            self.rows += [row for change, row in asked if not change.travels or row in told]
        if order := self.wanted.order:
            self.rows += self.worst_of([*self.stages("stage", order)])
        self.last = [row for side in range(len(self.sides)) if (row := self.together(side))]
        return True

    def wishes(self) -> Wishes:
        joints = changes.lengths(self.bearings)
        usual = min(joints[len(joints) // 2], 5 * joints[0])
        return Wishes(self.wanted.inset or twentieth(usual), self.wanted.up, self.wanted.travels)

    def worst_of(self, rows: list[Row]) -> list[Row]:
        """The worst of stages, or of places, and those that aren't settled."""
        settled = [row for row in rows if not row.why]
        return [*sorted(settled, key=lambda row: row.part(self.drawn))[:1], *(row for row in rows if row.why)]

    # All together

    def together(self, side: int) -> Row | None:
        """The worst of each family together, to one side. Then others take their places, one by one, if less is carried
        so, or none, if no more is, until no one makes it less."""
        chosen = [self.worst(family, side) for family in self.families]
        if not any(chosen):
            return None
        with TemporaryDirectory() as folder:
            end, before = time_limit.taken() + self.wanted.seconds, list[Change | None]()
            while chosen != before:
                before, chosen = chosen, self.worse(chosen, side, Path(folder), end)
        made = [one for one in chosen if one]
        said = f"all together{', the other way' if side else ''}: " + "; ".join(one.said for one in made)
        return self.row("together", said, made, [side]) if len(made) > 1 else None

    def worse(self, chosen: list[Change | None], side: int, folder: Path, end: float) -> list[Change | None]:
        """These changes, with others in their places where less is carried so, up to a time."""
        least = self.asked_with(chosen, side, folder)
        for k, family in enumerate(self.families):
            for change in (None, *(one for one, row in family if one.joins and not row.why)):
                if change is chosen[k] or time_limit.taken() > end:
                    continue
                other = [*chosen[:k], change, *chosen[k + 1:]]
                found = self.asked_with(other, side, folder)
                if found < least or found == least and change is None:
                    chosen, least = other, found
        return chosen

    def worst(self, family: list[tuple[Change, Row]], side: int) -> Change | None:
        """The change of a family with which least is carried to a side, if that is no more than as drawn."""
        found = [(end.factor(), k) for k, (change, row) in enumerate(family)
                 if change.joins and not row.why and (end := row.ends[side])]
        drawn = self.drawn.ends[side]
        return family[min(found)[1]][0] if found and drawn and min(found)[0] <= drawn.factor() else None

    def asked_with(self, chosen: Sequence[Change | None], side: int, folder: Path) -> float:
        """What is carried with these changes, without limit where that isn't settled; less than 0 if it falls."""
        end = self.row("try", "all together", [one for one in chosen if one], [side], folder).ends[side]
        if end is not None and isinstance(end.found, Collapses):
            return -1.0
        return inf if end is None else end.factor()


def stage(names: list[str]) -> Change:
    return Change("", "", lambda of: of.but(of.model.built(names)))
