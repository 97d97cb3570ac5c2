"""How far a cost or a bound may be moved, as the lines `range` of an answer tell it."""

from __future__ import annotations

from dataclasses import dataclass
from fractions import Fraction
from typing import Literal

# A number; None where there is no end; `wide` where a number on the way to it didn't fit, so that it isn't known.
End = Fraction | Literal["wide"] | None


@dataclass(frozen=True)
class Range:
    """The values with which the last basis goes on to be right, if this one cost or bound alone is moved. Both ends are
    among them.
    """

    low: End
    high: End

    def holds(self, value: Fraction | int) -> bool | None:
        """Whether a value is in the range; None where an end that isn't known would have to say it."""
        if isinstance(self.low, Fraction) and value < self.low or isinstance(self.high, Fraction) and value > self.high:
            return False
        return None if "wide" in (self.low, self.high) else True

    def ends(self) -> tuple[str, str]:
        """Both ends as in the text: a fraction, `-inf`, `inf` or `wide`."""
        return (
            "-inf" if self.low is None else str(self.low),
            "inf" if self.high is None else str(self.high),
        )

    def __str__(self) -> str:
        return " to ".join(self.ends())
