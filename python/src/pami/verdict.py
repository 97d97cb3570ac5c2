"""What a checker says of a certificate."""

from __future__ import annotations

from dataclasses import dataclass
from fractions import Fraction
from typing import Literal


@dataclass(frozen=True)
class Verdict:
    """`kind` is `valid`, `invalid` (with `condition` and `variable`, which is `-` where the condition speaks of the
    whole), `unchecked` (with the operation that doesn't fit too) or `malformed` (with `line` and `fault`). The words
    are those of docs/CHECKING.md.
    """

    kind: Literal["valid", "invalid", "unchecked", "malformed"]
    condition: str = ""
    variable: str = ""
    op: str = ""
    left: Fraction | None = None
    right: Fraction | None = None
    line: int = 0
    fault: str = ""

    @property
    def is_valid(self) -> bool:
        return self.kind == "valid"

    def __str__(self) -> str:
        """The line that the program writes for it."""
        if self.kind == "malformed":
            return f"malformed {self.line} {self.fault}"
        operation = [self.op, str(self.left), str(self.right)] if self.op else []
        return " ".join(word for word in [self.kind, self.condition, self.variable, *operation] if word)
