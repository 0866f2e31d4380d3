"""The units in which a script prints forces and lengths.

Nothing here is proved. A model that a script has printed may have all its forces, or all its lengths, so many times as
great as those of the structure. Its first line says so, and what reads its answers divides by it.
"""
import re
from collections.abc import Iterable, Sequence
from dataclasses import dataclass, replace
from fractions import Fraction
from math import isqrt

from masonry.console import Refused, Words, shown
from masonry.model import Load, Model, sum_of
from masonry.numbers import decimal, number

SCALED = re.compile(r"# All forces are multiplied by ([0-9/]+), all lengths by ([0-9]+)\.", re.ASCII)
TWENTY = 10**20


@dataclass(frozen=True)
class Scale:
    """By what the forces and the lengths of a model are multiplied."""
    forces: Fraction = Fraction(1)
    lengths: int = 1

    def line(self) -> str:
        """The first line of such a model."""
        return f"# All forces are multiplied by {self.forces}, all lengths by {self.lengths}.\n"

    def times(self, other: "Scale") -> "Scale":
        return Scale(self.forces * other.forces, self.lengths * other.lengths)


def scale_of(text: str) -> Scale:
    """What the first line of a model says."""
    found = SCALED.match(text.removeprefix("\ufeff"))
    try:
        return Scale(Fraction(found[1]), int(found[2])) if found else Scale()
    except (ValueError, ZeroDivisionError):
        return Scale()


FACTOR = re.compile(r"# The factor (-?[0-9]+/[0-9]+) is dead here(, and the live loads are turned round)?:.*", re.ASCII)
SHARE = re.compile(r"# The share (-?[0-9]+/[0-9]+) of the live loads is dead here\.", re.ASCII)


@dataclass(frozen=True)
class Dead:
    """Which factor of a drawing's live loads is dead in a model, beside which the model's own factors count: with the
    sign -1 if its live loads act the other way, and 0 if it has none."""
    factor: Fraction = Fraction(0)
    sign: int = 1

    def of(self, factor: Fraction) -> Fraction:
        """The drawing's factor, for one of the model."""
        return self.factor + self.sign * factor

    def also(self, factor: Fraction) -> "Dead":
        """The same, with one more factor of the model dead."""
        return Dead(self.of(factor), self.sign)

    def turned(self) -> "Dead":
        """What is dead in the reversed model."""
        return replace(self, sign=-self.sign) if self.factor else self

    def shared(self, share: Fraction) -> "Dead":
        """What is dead in the model of a share of the model."""
        return Dead(self.of(share), 0)

    def line(self) -> str:
        """The line that says so in such a model; none if nothing is dead."""
        at = f"{self.factor.numerator}/{self.factor.denominator}"
        if self.sign == 0:
            return f"# The share {at} of the live loads is dead here.\n"
        if self.sign < 0:
            return (f"# The factor {at} is dead here, and the live loads are turned round: that minus a factor of "
                    "this model is one of the drawing.\n")
        return f"# The factor {at} is dead here: the factors of this model are less by that.\n" if self.factor else ""


def dead_of(text: str) -> Dead:
    """What the first lines of a model say."""
    for line in text.removeprefix("\ufeff").splitlines()[:2]:
        try:
            if found := FACTOR.fullmatch(line):
                return Dead(Fraction(found[1]), -1 if found[2] else 1)
            if found := SHARE.fullmatch(line):
                return Dead(Fraction(found[1]), 0)
        except ZeroDivisionError:
            break
    return Dead()


# Among the words


def unit_of(word: str, called: str) -> Fraction:
    """What a force of 1 of the structure is in kN, or a length of 1 in metres."""
    return decimal(word, called, Fraction(1, 10**12), 10**12)


@dataclass(frozen=True)
class Given:
    """What a force of 1 of the structure is in kN and a length of 1 in metres; None where words don't say it."""
    force: Fraction | None = None
    length: Fraction | None = None

    def lines(self) -> list[str]:
        """The first lines of what is printed so."""
        return ["forces in kN"] * (self.force is not None) + ["lengths in m"] * (self.length is not None)

    def units(self, scale: Scale) -> "Units":
        """What is printed for a force and for a length of 1 of a model with this scale."""
        force, length = self.force or scale.forces, self.length or Fraction(scale.lengths)
        return Units(force / scale.forces, length / scale.lengths)


def given_of(words: Sequence[str], after: str) -> Given:
    """What `kN FORCE` and `m LENGTH` say, in any order. `after` are the words that they follow."""
    given: dict[str, Fraction] = {}
    for word, value in zip(words[::2], [*words[1::2], ""]):
        if word not in ("kN", "m") or word in given:
            raise Words(f"after {after} come `kN FORCE` and `m LENGTH`, and not {shown(word)}")
        given[word] = unit_of(value, f"the value after {word}")
    return Given(given.get("kN"), given.get("m"))


def with_units(words: Sequence[str], least: int, lengths: bool = True) -> tuple[list[str], Given]:
    """Words without the units at their end, behind so many words at least; and what these say. Where nothing that is
    printed is a length, `m LENGTH` is refused."""
    count = len(words)
    while count - 2 >= least and words[count - 2] in ("kN", "m"):
        count -= 2
    given = given_of(words[count:], "the other words")
    if given.length is not None and not lengths:
        raise Words("there is no `m LENGTH` here: nothing that is printed is a length")
    return list(words[:count]), given


# As they are printed


@dataclass(frozen=True)
class Units:
    """What is printed for a force of 1 and for a length of 1 of a model."""
    force: Fraction = Fraction(1)
    length: Fraction = Fraction(1)

    def long(self, part: Fraction | float) -> str:
        """A length, or a part of a place, to the ten-thousandth of a unit of the grid where that is more than six
        digits."""
        return number(float(part) * float(self.length), 1e-4 * float(self.length))

    def point(self, at: Sequence[Fraction | float]) -> str:
        return " ".join(map(self.long, at))


@dataclass(frozen=True)
class Size:
    """A size: a fraction times the square root of a whole number."""
    times: Fraction = Fraction(1)
    root: int = 1

    def of(self, factor: Fraction) -> Fraction:
        """A multiple of it; a root that is no whole number is rounded to twenty digits."""
        value = factor * self.times
        return value if self.root == 1 else value * Fraction(isqrt(self.root * TWENTY**2), TWENTY)


def length_of(squared: int, times: Fraction = Fraction(1)) -> Size:
    """So many times the length of a vector, of which the square is given."""
    root = isqrt(squared)
    return Size(times * root) if root * root == squared else Size(times, squared)


def size_of(loads: Iterable[Load], called: str, unit: Fraction = Fraction(1)) -> Size:
    """The size of what loads come to, where a force of 1 of their model is printed as this."""
    across, up = sum_of(loads)
    if across == up == 0:
        raise Refused(f"{called} come to no force, so nothing is their size")
    return length_of(across * across + up * up, unit)


def factor_in(unit: Fraction, model: Model) -> Size:
    """What is printed for a factor of 1: the size of all live loads; or the factor, if a sway acts with them."""
    return Size() if any(model.sway or ()) else size_of(model.live_loads(), "the live loads", unit)
