"""Numbers: among the words of a script, as they are printed, and in lowest terms.

Nothing here is proved.
"""
import re
from collections.abc import Callable, Sequence
from decimal import Decimal
from fractions import Fraction
from math import ceil, floor, gcd, lcm

from masonry.console import Words, shown

DIGITS = 30  # of a number among the words, at most
DECIMAL = re.compile(r"(-?)([0-9]*)\.?([0-9]*)", re.ASCII)

Limit = Fraction | int | None


# Among the words


def whole(word: str, called: str, least: int | None = None, most: int | None = None) -> int:
    """The whole number that a word is."""
    digits = word.removeprefix("-")
    if not (digits.isascii() and digits.isdecimal() and len(digits) <= DIGITS):
        raise Words(f"{called} must be a whole number, and {shown(word)} is none")
    number = int(word)
    if least is not None and number < least:
        raise Words(f"{called} must be at least {least}, and is {number}")
    if most is not None and number > most:
        raise Words(f"{called} must be at most {most}, and is {number}")
    return number


def fraction(numerator: str, denominator: str, called: tuple[str, str] = ("N", "D")) -> Fraction:
    """The fraction of two words, of which the second is from 1 up."""
    return Fraction(whole(numerator, called[0]), whole(denominator, called[1], 1))


def decimal(word: str, called: str, least: Limit = None, most: Limit = None) -> Fraction:
    """The decimal number that a word is, such as -0.5, or the fraction, such as 2/3."""
    over, _, under = word.partition("/")
    found = DECIMAL.fullmatch(over)
    if not found or len(word) > DIGITS or not found[2] + found[3] or not (under or "1").strip("0"):
        raise Words(f"{called} must be a number, and {shown(word)} is none")
    if under and not (under.isascii() and under.isdecimal()) or word.endswith("/"):
        raise Words(f"{called} must be a number, and {shown(word)} is none")
    number = Fraction(int(found[2] + found[3]), 10 ** len(found[3])) / int(under or 1)
    number = -number if found[1] else number
    for limit, beyond, said in ((least, least is not None and number < least, "at least"),
                                (most, most is not None and number > most, "at most")):
        if beyond:
            raise Words(f"{called} must be {said} {limit}, and is {shown(word)}")
    return number


# As they are printed


def number(value: Fraction | float, least: float = 1e-9) -> str:
    """Six digits of a number, however great it is; 0 where it isn't above the least."""
    try:
        return f"{float(value):.6g}" if abs(float(value)) > least else "0"
    except OverflowError:
        exact = Fraction(value)
        return f"{Decimal(exact.numerator) / Decimal(exact.denominator):.6g}"


def ratio(x: Fraction) -> str:
    """The numerator and the denominator."""
    return f"{x.numerator}/{x.denominator}"


def nine_digits(x: Fraction, rounded: Callable[[Fraction], int] = round) -> str:
    """About nine digits of a number. What is rounded down is rounded to a lesser number, also below 0."""
    places = max(0, 9 - len(str(floor(abs(x)))))
    number = rounded(x * 10**places)
    digits = str(abs(number)).rjust(places + 1, "0")
    text = (digits[:-places] + "." + digits[-places:]).rstrip("0").rstrip(".") if places else digits
    return "-" + text if number < 0 else text


def with_decimal(value: Fraction | str) -> str:
    """A fraction and its decimal, or a word as it is."""
    if value == "unlimited":
        return "unlimited"
    exact = Fraction(value)
    return f"{ratio(exact)} = {number(exact)}"


# Lowest terms


def lowest(numbers: Sequence[Fraction | int]) -> list[int]:
    """Whole numbers without a common divisor in the proportion of these fractions."""
    scale = lcm(*(x.denominator for x in numbers))
    scaled = [int(x * scale) for x in numbers]
    common = gcd(*scaled) or 1
    return [x // common for x in scaled]


def simplest(low: Fraction, high: Fraction) -> Fraction:
    """The fraction of the least terms from low to high, both from 0 up."""
    least = floor(low)
    if ceil(low) <= high:
        return Fraction(ceil(low))
    return least + 1 / simplest(1 / (high - least), 1 / (low - least))
