"""What is found: each answer has a certificate, or two, that `check` accepted.

Nothing here is proved.
"""
from dataclasses import dataclass
from fractions import Fraction

from masonry.statics import Motion


@dataclass(frozen=True)
class Stands:
    """The dead loads are carried."""


@dataclass(frozen=True)
class Collapses:
    """The dead loads aren't carried."""
    motion: Motion


@dataclass(frozen=True)
class Unlimited:
    """All factors of the live loads from 0 up are carried."""


@dataclass(frozen=True)
class Greatest:
    """The collapse load factor, and a motion that forbids more."""
    factor: Fraction
    motion: Motion


@dataclass(frozen=True)
class Shares:
    """A share of the live loads that is carried, and one that isn't, with a motion that forbids it; None where one
    wasn't found. `stands` says that the dead loads alone are carried."""
    carried: Fraction | None
    beyond: Fraction | None
    motion: Motion | None
    stands: bool


Standing = Stands | Collapses
Loaded = Unlimited | Greatest | Shares | Collapses


def lower(found: Loaded) -> Fraction | None:
    """The greatest factor that is known to be carried, of an answer with a limit."""
    return found.factor if isinstance(found, Greatest) else found.carried if isinstance(found, Shares) else None


def upper(found: Loaded) -> Fraction | None:
    """The least factor above which nothing is known to be carried."""
    return found.factor if isinstance(found, Greatest) else found.beyond if isinstance(found, Shares) else None


def is_whole(found: Loaded) -> bool:
    """Whether nothing is missing."""
    return not isinstance(found, Shares) or found.stands and None not in (found.carried, found.beyond)
