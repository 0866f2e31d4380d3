"""From which factor to which a structure carries its live loads, also where it falls without them; and from which force
to which a tie or a prop holds it.

Nothing here is proved. Both ends are those of an exact linear program. A factor between them is made dead, and the
range of the model that this gives is certified as `range` does it: each end has a certificate that `check` accepts.
"""
from dataclasses import dataclass, replace
from fractions import Fraction
from math import floor, gcd

from masonry import console, model as models, program
from masonry.console import Refused, Telling
from masonry.lp import linear
from masonry.lp.short_certificates import motion_lines, short_motion
from masonry.model import Block, Load, Model
from masonry.numbers import fraction, nine_digits, ratio, simplest, whole
from masonry.questions import ranges, results
from masonry.questions.case import Case
from masonry.questions.results import Loaded, Unlimited
from masonry.questions.voice import Plain, Silent
from masonry.statics import Motion, NotFound, Structure, work
from masonry.units import Dead, Scale, Size, factor_in, length_of


@dataclass(frozen=True)
class Question:
    """A model whose live loads are asked about, by what its forces are multiplied, the force of a tie or a prop at a
    factor of 1, if it is about one, what a factor of 1 is in decimals, if these are in another unit, and which factor
    of a drawing is dead in the model."""
    model: Model
    scale: Scale = Scale()
    force: Size | None = None
    decimal: Size | None = None
    dead: Dead = Dead()

    def said(self, factor: Fraction) -> str:
        exact = self.force or Size()
        size = self.decimal or exact
        decimals = nine_digits(size.of(factor)) if size.root == 1 else f"{float(size.of(factor)):.9g}"
        return f"{ratio(factor * exact.times)}{'' if exact.root == 1 else f'*sqrt({exact.root})'} = {decimals}"

    def in_kn(self, unit: Fraction) -> "Question":
        """The same with decimals in kN, where a force of 1 is this many."""
        return replace(self, decimal=Size(self.force.times * unit, self.force.root) if self.force
                       else factor_in(unit, self.model))


# What is asked


def held(model: Model, share: Fraction) -> tuple[Model, int]:
    """The model in which this share of the live loads is dead, without live loads, and by what its loads are
    multiplied."""
    if not share:
        return replace(model, sway=None, loads=model.dead_loads()), 1
    made = models.share(model, share.numerator, share.denominator)
    return made, models.multiple(model, made, share.denominator)


def direction(x: int, y: int) -> tuple[int, int]:
    if x == y == 0:
        raise Refused("the direction 0 0 is none")
    return x // gcd(x, y), y // gcd(x, y)


def prop(model: Model, name: str, at: models.Point, way: models.Point, share: Fraction) -> Question:
    """A prop that pushes a block at a point, in a direction."""
    u, v = direction(*way)
    body(model, name, free=True)
    made, times = held(model, share)
    return Question(replace(made, loads=[*made.loads, Load(name, "live", list(at), [u, v])]),
                    Scale(Fraction(times)), length_of(u * u + v * v, Fraction(1, times)))


def tie(model: Model, ends: tuple[str, str], at: tuple[models.Point, models.Point], share: Fraction) -> Question:
    """A tie between points of two bodies, which draws them together. A fixed body bears without a load."""
    u, v = direction(at[1][0] - at[0][0], at[1][1] - at[0][1])
    bodies = [body(model, name) for name in ends]
    if all(one.fixed for one in bodies) or ends[0] == ends[1]:
        raise Refused("a tie holds two bodies, of which one at least is free")
    made, times = held(model, share)
    pair = [Load(one.name, "live", list(place), [sign * u, sign * v])
            for one, place, sign in zip(bodies, at, (1, -1)) if not one.fixed]
    return Question(replace(made, loads=[*made.loads, *pair]), Scale(Fraction(times)),
                    length_of(u * u + v * v, Fraction(1, times)))


def of_words(model: Model, kind: str, words: list[str]) -> Question:
    """The question of the words after `tie` or `prop`."""
    count = 6 if kind == "tie" else 5
    share = fraction(words[count], words[count + 1]) if words[count:] else Fraction(0)
    if kind == "tie":
        return tie(model, (words[0], words[3]), (point(words[1:3], "X Y"), point(words[4:6], "U V")), share)
    return prop(model, words[0], point(words[1:3], "X Y"), point(words[3:5], "U V"), share)


def point(words: list[str], called: str) -> list[int]:
    return [whole(word, one, -models.COORDINATE, models.COORDINATE)
            for word, one in zip(words, called.split())]


def body(model: Model, name: str, free: bool = False) -> Block:
    for block in model.blocks:
        if block.name == name and not (free and block.fixed):
            return block
    raise Refused(f"no {'free block' if free else 'body'} is named {console.shown(name)}")


# The answer


def middle(low: Fraction | None, high: Fraction | None) -> Fraction:
    """A factor that is carried, of short terms: 0 if it is, or one in the middle half."""
    if (low is None or low <= 0) and (high is None or high >= 0):
        return Fraction(0)
    if low is None or high is None:
        return Fraction(floor(low) + 1 if low is not None else -floor(-(high or 0)) - 1)
    if high < 0:
        return -middle(-high, -low)
    return simplest(low + (high - low) / 4, high - (high - low) / 4)


def shifted(model: Model, share: Fraction) -> tuple[Model, int]:
    """The model in which a share of the live loads is dead, and all loads are multiplied alike, and by what. So each of
    its factors is one of the model itself, less the share."""
    made = models.share(model, share.numerator, share.denominator)
    times = models.multiple(model, made, share.denominator)
    live = models.listed(((one.block, one.at, one.times(times).force) for one in model.live_loads()), "live")
    if len(made.loads) + len(live) > models.LOADS:
        raise Refused(f"more than {models.LOADS} loads")
    return replace(made, sway=model.sway, loads=[*made.loads, *live]), times


@dataclass(frozen=True)
class End:
    """An end in the words of the question: what is carried, and what isn't, where these aren't one."""
    carried: str
    beyond: str | None = None

    def said(self) -> str:
        return self.carried if self.beyond is None else f"carried {self.carried} beyond {self.beyond}"


def end_of(answer: Loaded, share: Fraction, sign: int, question: Question) -> End | None:
    """An end; None where it wasn't found."""
    if isinstance(answer, Unlimited):
        return End("unlimited")
    low, high = results.lower(answer), results.upper(answer)
    if low is None or high is None:
        return None
    carried, beyond = (question.said(share + sign * end) for end in (low, high))
    return End(carried, None if low == high else beyond)


def nothing(question: Question, name: str, cert: str, structure: Structure, progress: Telling) -> None:
    """That no factor is carried, with the certificate of a collapse on whose motion the live loads do no work."""
    case = Case(name, cert, progress, Plain())

    def good(motion: Motion) -> bool:
        return work(structure.dead, motion) > 0 and work(structure.live, motion) == 0

    exact = linear.fall_anyway(structure)
    try:
        motion = short_motion(structure, exact, lambda: linear.opening(structure, still=True), good, still=True)
    except NotFound:
        motion = exact
    case.accepted(name, cert, ["collapses", *motion_lines(motion)])
    print("collapses accepted")
    print("between no factors: on the motion of this collapse the live loads do no work")


def between(question: Question, cert: str, progress: Telling) -> bool:
    """Asks for both ends. Says whether nothing is missing."""
    stem = cert.removesuffix(".cert")
    name = stem + ".toml"
    ranges.put(name, question.model, question.scale, question.dead)
    structure = Structure(question.model, program.answer("contacts", name))
    progress("both ends")
    ends = linear.ends(structure)
    if ends is None:
        nothing(question, name, cert, structure, progress)
        return True
    share = middle(*ends)
    if share:
        made, times = shifted(question.model, share)
        ranges.put(name, made, question.scale.times(Scale(Fraction(times))), question.dead.also(share))
    case = Case(name, cert, progress, Silent())
    greatest, least = ranges.both(case, ranges.reversed_case(case), "")
    top = end_of(greatest, share, 1, question)
    bottom = None if least is None else end_of(least, share, -1, question)
    for word, end in ("greatest", top), ("least", bottom):
        print(f"{word} {end.said()} accepted" if end else f"{word} wasn't found", flush=True)
    if top is None or bottom is None:
        return False
    exact = top.beyond is bottom.beyond is None
    print(("between {} and {}" if exact else "carried from {} to {}").format(bottom.carried, top.carried))
    return True
