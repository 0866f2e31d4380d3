"""How an answer is announced.

Nothing here is proved.
"""
import sys
from collections.abc import Callable
from fractions import Fraction

from masonry.numbers import nine_digits
from masonry.units import Size


class Voice:
    """Announces what is accepted, with decimals that are so many times the factors. A voice of another kind says less,
    or nothing at all."""

    def __init__(self, size: Size = Size()) -> None:
        self.size = size

    def say(self, line: str) -> None:
        print(line, flush=True)

    def note(self, line: str) -> None:
        print(line, file=sys.stderr, flush=True)

    def decimals(self, factor: Fraction, rounded: Callable[[Fraction], int] = round) -> str:
        return nine_digits(self.size.of(factor), rounded)


class Plain(Voice):
    """A voice that says nothing of the files of certificates."""

    def note(self, line: str) -> None:
        pass


class Silent(Plain):
    def say(self, line: str) -> None:
        pass
