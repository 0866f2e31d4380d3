"""How much friction a structure needs: a share of all its coefficients with which it stands, and a lesser one with
which it doesn't.

Nothing here is proved, but the models of both shares have certificates that `check` accepts. A share may make
coefficients that a file can't hold. They are rounded down where the model is to stand, and up where it is to fall.
"""
from collections.abc import Callable
from dataclasses import dataclass, replace
from fractions import Fraction
from math import ceil, floor
from pathlib import Path
from tempfile import TemporaryDirectory

from masonry.console import Telling
from masonry.model import Model, Point
from masonry.numbers import number, ratio, simplest
from masonry.questions import ranges
from masonry.questions.between import held
from masonry.questions.case import Case
from masonry.questions.results import Stands
from masonry.questions.voice import Silent
from masonry.statics import NotFound
from masonry.units import Scale

TERM = 1000  # the greatest number of a coefficient
NEAR = Fraction(1, 1000)  # how far both shares may be apart, as a part of them


def coefficient(friction: Point, share: Fraction, rounded: Callable[[Fraction], int]) -> Fraction | None:
    """A share of a coefficient, rounded down or up to one that a file can hold; None if there is none."""
    exact = share * Fraction(*friction)
    near = [Fraction(rounded(exact * q), q) for q in range(1, TERM + 1) if rounded(exact * q) <= TERM]
    if rounded is floor:
        return max([*near, *([Fraction(TERM)] if exact > TERM else [])])
    return min(near, default=None)


def with_friction(model: Model, share: Fraction, rounded: Callable[[Fraction], int]) -> Model | None:
    """The model with a share of all its coefficients, rounded; None if one of them is too great for a file."""
    taken: dict[tuple[int, ...], Fraction] = {}
    for friction in [*(one.friction for one in model.materials), *(one.friction for one in model.joints)]:
        found = coefficient(friction, share, rounded)
        if found is None:
            return None
        taken[tuple(friction)] = found

    def terms(friction: Point) -> list[int]:
        return [taken[tuple(friction)].numerator, taken[tuple(friction)].denominator]

    return replace(model, materials=[replace(one, friction=terms(one.friction)) for one in model.materials],
                   joints=[replace(one, friction=terms(one.friction)) for one in model.joints])


@dataclass
class Search:
    """A model whose loads are all dead, by what its forces are multiplied, and the files of what is tried."""
    model: Model
    scale: Scale
    folder: Path
    progress: Telling

    def stands(self, share: Fraction) -> bool | None:
        """Whether the model stands with a share of its friction; None if rounding leaves that open."""
        self.progress(f"friction times {number(share)}")
        low, high = (with_friction(self.model, share, rounded) for rounded in (floor, ceil))
        if low is not None and self.asked(low):
            return True
        return False if high is not None and (high == low or not self.asked(high)) else None

    def asked(self, model: Model) -> bool:
        name = str(self.folder / "model.toml")
        ranges.put(name, model, self.scale)
        return isinstance(Case(name, str(self.folder / "model.cert"), voice=Silent()).settled_stand(), Stands)

    def both(self) -> tuple[Fraction | None, Fraction | None]:
        """A share with which the model falls and one with which it stands, close together. None for the first if it
        stands without friction, for the second if it falls with the greatest coefficients that a file can hold."""
        if self.stands(Fraction(0)):
            return None, Fraction(0)
        falls, stands = Fraction(0), Fraction(1)
        while not self.stands(stands):
            if with_friction(self.model, 2 * stands, ceil) is None:
                return stands, None
            falls, stands = stands, 2 * stands
        while stands - falls > NEAR * stands:
            quarter = (stands - falls) / 4
            share = simplest(falls + quarter, stands - quarter)
            found = self.stands(share)
            if found is None:
                break
            falls, stands = (falls, share) if found else (share, stands)
        return falls, stands


def needed(model: Model, scale: Scale, stem: str, acting: Fraction, progress: Telling) -> None:
    """Asks how much friction a model needs with a share of its live loads."""
    made, times = held(model, acting)
    scale = scale.times(Scale(Fraction(times)))
    with TemporaryDirectory() as folder:
        falls, stands = Search(made, scale, Path(folder), progress).both()
    for share, word, rounded in ((stands, "stands", floor), (falls, "falls", ceil)):
        found = None if share is None else with_friction(made, share, rounded)
        if share is not None and found is not None:
            ranges.put(f"{stem}-{word}.toml", found, scale)
            Case(f"{stem}-{word}.toml", f"{stem}-{word}.cert", progress, Silent()).settled_stand()
            print(f"friction times {ratio(share)} = {number(share)} {word}, accepted", flush=True)
    if falls is None:
        print("no friction is needed")
    if stands is None:
        raise NotFound("it still falls, and coefficients twice as great don't fit into a file")
