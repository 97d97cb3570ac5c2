"""Fractions as decimals: rounded for people, and exact for files."""

from __future__ import annotations

import math
from collections.abc import Iterable
from fractions import Fraction


def decimal(value: Fraction, digits: int = 6) -> str:
    """A fraction as a decimal of at most so many digits behind the point, rounded to the nearest; a tie goes away from
    0. What was rounded has a `~` in front: `1/4` is `0.25`, and `1/3` is `~0.333333`.
    """
    scaled = abs(value) * 10**digits
    whole = int(scaled + Fraction(1, 2))
    text = str(whole).rjust(digits + 1, "0")
    shown = text[:-digits] + "." + text[-digits:] if digits else text
    shown = shown.rstrip("0").rstrip(".") if digits else shown
    return ("" if whole == scaled else "~") + ("-" if value < 0 and whole else "") + shown


def factor_of(values: Iterable[Fraction]) -> int:
    """The least number that makes finite decimals of all these fractions."""
    factor = math.lcm(*(value.denominator for value in values))
    for prime in (2, 5):
        while factor % prime == 0:
            factor //= prime
    return factor


def decimal_text(value: Fraction) -> str:
    """A finite decimal, exactly."""
    places = 0
    while (value * 10**places).denominator != 1:
        places += 1
    whole = str(int(value * 10**places))
    return f"{whole}e-{places}" if places else whole
