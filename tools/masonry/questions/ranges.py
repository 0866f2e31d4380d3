"""Between which factors a structure carries its live loads: both ends, each with a certificate that `check` accepts.

Nothing here is proved.
"""
from masonry import model as models
from masonry.console import Refused
from masonry.model import Model
from masonry.numbers import ratio
from masonry.questions.case import Case
from masonry.questions.results import Collapses, Greatest, Loaded, Unlimited, is_whole, lower
from masonry.units import Dead, Scale, dead_of, scale_of


def both(case: Case, other: Case, between: str) -> tuple[Loaded, Loaded | None]:
    """What the model of a case carries, and the reversed one after it, whose model is written to the other's file."""
    greatest = case.settled_load()
    if isinstance(greatest, Collapses):
        return greatest, None
    text = models.text_of(case.name)
    put(other.name, case.model.turned(), scale_of(text), dead_of(text).turned())
    if between:
        case.voice.say(between)
    return greatest, other.settled_load()


def put(name: str, model: Model, scale: Scale, dead: Dead = Dead()) -> None:
    """Writes a model whose first lines say by what its forces are multiplied, if they are, and which factor is dead."""
    models.put(name, head(scale, dead) + models.printed(model))


def head(scale: Scale, dead: Dead) -> str:
    """The first lines of such a model."""
    return ("" if scale == Scale() else scale.line()) + dead.line()


def reversed_case(case: Case) -> Case:
    """The case of the reversed model, in files of their own."""
    stem = f"{case.stem}-reversed"
    return Case(stem + ".toml", stem + ".cert", case.progress, case.voice, case.part)


def ranged(case: Case) -> bool:
    """Both sides in turn, and at last, in factors of the model itself, from where to where is carried. Says whether
    nothing is missing."""
    greatest, least = both(case, reversed_case(case), "reversed")
    if least is None:
        return True
    if isinstance(least, Collapses):
        raise Refused("the reversed model collapses, and the model doesn't")
    ends = [end_of(least, -1), end_of(greatest, 1)]
    exact = all(isinstance(one, (Greatest, Unlimited)) for one in (greatest, least))
    if None not in ends:
        case.voice.say("range {} {}".format(*ends) if exact else "carried from {} to {}".format(*ends))
    return is_whole(greatest) and is_whole(least)


def end_of(found: Loaded, sign: int) -> str | None:
    """The end of a range, as a factor of the model itself; None where it is missing."""
    factor = lower(found)
    return "unlimited" if isinstance(found, Unlimited) else None if factor is None else ratio(sign * factor)
