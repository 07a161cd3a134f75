"""Exact numbers of many cells, as pairs of whole numbers: a Fraction is reduced each time, which takes ten times as long.

    >>> ratio_of("-12.50")
    Ratio(numerator=-1250, denominator=100)
"""
from __future__ import annotations

import re
from fractions import Fraction
from typing import NamedTuple, Optional, Union

DECIMAL = re.compile(r"([+-]?)(?=\.?\d)(\d*)(?:\.(\d*))?(?:[eE]([+-]?\d{1,3}))?")
# More digits than any number needs; Python reads no more than some thousands.
MOST_DIGITS = 1000


class Ratio(NamedTuple):
    """A number as a Fraction has it, but for common factors; the denominator is above 0."""

    numerator: int
    denominator: int


class Linear:
    """A number times a factor, and a constant more."""

    def __init__(self, factor: Union[int, Fraction], constant: Union[int, Fraction]):
        # Of n/m that is (n * factor + m * constant) / (m * divisor).
        self.factor, self.constant = factor.numerator * constant.denominator, constant.numerator * factor.denominator
        self.divisor = factor.denominator * constant.denominator

    def of(self, number: Union[int, Fraction, Ratio]) -> Ratio:
        """What that is of a number."""
        top, bottom = number.numerator, number.denominator
        return Ratio(top * self.factor + bottom * self.constant, bottom * self.divisor)


def ratio_of(text: str) -> Optional[Ratio]:
    """The number that is written with a decimal point or an exponent, or nothing if it is none."""
    found = DECIMAL.fullmatch(text)
    if found is None or len(text) > MOST_DIGITS:
        return None
    sign, whole, digits, exponent = found.groups()
    digits = digits or ""
    power = int(exponent or 0) - len(digits)
    number = int(sign + whole + digits)
    return Ratio(number * 10**power, 1) if power > 0 else Ratio(number, 10**-power)
