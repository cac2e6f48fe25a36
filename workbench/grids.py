"""The grid on which all written points lie."""
from __future__ import annotations

import math
from fractions import Fraction

import numpy

from .solid import GREATEST


def finest(greatest: float) -> Fraction:
    """The finest grid of 1, 2 or 5 times a power of ten that keeps all coordinates within the greatest of staat.

    greatest: the greatest coordinate by its absolute value, in model units. The answer is the step in model units.
    """
    power = math.floor(math.log10(greatest / GREATEST)) - 1 if greatest else 0
    while True:
        for digit in (1, 2, 5):
            grid = digit * Fraction(10) ** power
            if numpy.rint(greatest / float(grid)) <= GREATEST:
                return grid
        power += 1


def written(grid: Fraction) -> str:
    """A grid as it is given: a decimal number where it is one, else a fraction."""
    if 10**12 % grid.denominator:
        return str(grid)
    return (
        format(grid.numerator * 10**12 // grid.denominator / 10**12, ".12f")
        .rstrip("0")
        .rstrip(".")
    )


def short(number: float) -> str:
    """A length as people read it: three digits, and never less than it is."""
    if abs(number) < 1e-12:
        return "0"
    if abs(number) >= 1000:
        return f"{math.ceil(number * 10) / 10:.6g}"
    power = 10.0 ** (2 - math.floor(math.log10(abs(number))))
    number = math.ceil(number * power - 1e-6) / power
    return f"{number:.12f}".rstrip("0").rstrip(".") if number >= 1e-6 else f"{number:.3g}"
