"""A linear model in unbounded fractions, and the numbers of its files. Independent of the program's own readers."""

from __future__ import annotations

import re
from dataclasses import dataclass, field
from fractions import Fraction
from typing import Literal

from .errors import ModelFault

Format = Literal["mps", "lp"]
Sense = Literal["min", "max"]

DECIMAL = re.compile(r"([+-]?)(?:([0-9]+)(?:\.([0-9]*))?|\.([0-9]+))(?:[eE]([+-]?[0-9]+))?\Z")
INFINITE = re.compile(r"([+-]?)inf(?:inity)?\Z", re.IGNORECASE)
# From here on a bound isn't there.
INFINITY = 10**20
# An exponent beyond this stands only in a number that is 0, infinite or too wide for the program.
EXPONENT = 5000


@dataclass
class Side:
    """A number that was read where an infinite one may stand: `value` is None where it is infinite, and `sign` its
    sign.
    """

    value: Fraction | None
    sign: int


@dataclass
class Model:
    """Rows and columns by their order in the file. A bound or side that isn't there is None. `entries` has for each
    column its entries other than 0 by the number of the row. Costs and the constant are those of the file, whatever its
    sense.
    """

    sense: Sense = "min"
    constant: Fraction = Fraction(0)
    rows: list[str] = field(default_factory=list)
    row_low: list[Fraction | None] = field(default_factory=list)
    row_high: list[Fraction | None] = field(default_factory=list)
    columns: list[str] = field(default_factory=list)
    costs: list[Fraction] = field(default_factory=list)
    low: list[Fraction | None] = field(default_factory=list)
    high: list[Fraction | None] = field(default_factory=list)
    entries: list[dict[int, Fraction]] = field(default_factory=list)

    def add_column(self, name: str) -> int:
        """The number of a new column, which costs nothing and is at least 0."""
        self.columns.append(name)
        self.costs.append(Fraction(0))
        self.low.append(Fraction(0))
        self.high.append(None)
        self.entries.append({})
        return len(self.columns) - 1

    def add_row(self, name: str, low: Fraction | None, high: Fraction | None) -> int:
        self.rows.append(name)
        self.row_low.append(low)
        self.row_high.append(high)
        return len(self.rows) - 1

    def sizes(self) -> tuple[int, int, int]:
        """How many rows, columns and entries other than 0 there are."""
        return len(self.rows), len(self.columns), sum(len(entries) for entries in self.entries)

    def row_values(self, values: list[Fraction]) -> list[Fraction]:
        """What each row adds up to, given a number for each column."""
        sums = [Fraction(0)] * len(self.rows)
        for entries, value in zip(self.entries, values, strict=True):
            if value:
                for row, entry in entries.items():
                    sums[row] += entry * value
        return sums

    def minimised_costs(self) -> list[Fraction]:
        """The costs that are to be made small."""
        return self.costs if self.sense == "min" else [-cost for cost in self.costs]

    def objective(self, values: list[Fraction]) -> Fraction:
        """The objective of the file at a point."""
        return self.constant + sum((cost * value for cost, value in zip(self.costs, values, strict=True)), Fraction(0))


def read_number(word: str, line: int) -> Fraction:
    """The exact value of a decimal."""
    found = DECIMAL.match(word)
    if found is None:
        raise ModelFault(line, f"{word!r} is no number")
    sign, whole, behind, alone, exponent = found.groups()
    places = behind or alone or ""
    digits = int((whole or "") + places or "0")
    power = int(exponent or 0)
    if digits and abs(power) > EXPONENT:
        raise ModelFault(line, f"{word!r} has too many digits")
    value = Fraction(digits) * Fraction(10) ** (power - len(places)) if digits else Fraction(0)
    return -value if sign == "-" else value


def read_side(word: str, line: int) -> Side:
    """A number where infinity may stand: `inf`, `infinity` and what is 10^20 or more."""
    found = INFINITE.match(word)
    if found is not None:
        return Side(None, -1 if found[1] == "-" else 1)
    decimal = DECIMAL.match(word)
    sign = -1 if word.startswith("-") else 1
    if decimal is not None and int(decimal[5] or 0) > EXPONENT and re.search("[1-9]", re.split("[eE]", word)[0]):
        return Side(None, sign)
    value = read_number(word, line)
    return Side(None if abs(value) >= INFINITY else value, -1 if value < 0 else 1)


def set_upper(model: Model, column: int, side: Side, has_lower: bool) -> None:
    """An upper bound as both formats have it: one below 0 takes the lower bound away where none was written before."""
    model.high[column] = side.value
    if side.sign < 0 and side.value is not None and not has_lower:
        model.low[column] = None
