"""The summary that `pami trial` writes, read into a `Trial`."""

from __future__ import annotations

import re
from dataclasses import dataclass, field
from fractions import Fraction

from .answer import Status, number
from .errors import OtherProgram, TextCut, TextFault

COUNT = "([0-9]+)"
LINES = (
    re.compile(f"trial {COUNT} {COUNT} {COUNT}\\Z"),
    re.compile("answer ([a-z-]+) objective (\\S+)\\Z"),
    re.compile(f"pivots {COUNT} majors {COUNT} flips {COUNT} rollbacks {COUNT}\\Z"),
)


@dataclass(frozen=True)
class Trial:
    """What the run on a drawn transport model came to: the cost of a best plan, or None where there is no such answer,
    and how many pivots, majors, flips and rollbacks its text has.
    """

    seed: int
    rows: int
    columns: int
    status: Status
    objective: Fraction | None
    pivots: int
    majors: int
    flips: int
    rollbacks: int
    text: str = field(repr=False)


def read_trial(text: str) -> Trial:
    """The summary that a text of `pami trial` tells."""
    if not text.startswith("trial "):
        raise OtherProgram("the text doesn't begin with the word `trial`: it is no summary of a drawn model")
    lines = text.split("\n")
    if len(lines) <= len(LINES):
        raise TextCut("the summary ends early: it was cut, or its run was stopped. Call it again.")
    words: list[str] = []
    for at, (due, line) in enumerate(zip(LINES, lines, strict=False), 1):
        found = due.match(line.removesuffix("\r"))
        if found is None:
            raise TextFault(at, line)
        words += found.groups()
    seed, rows, columns, status, objective, *counts = words
    if status not in list(Status):
        raise TextFault(2, lines[1])
    value = number(objective)
    if value is None and objective not in ("-", "wide"):
        raise TextFault(2, lines[1])
    pivots, majors, flips, rollbacks = map(int, counts)
    return Trial(
        int(seed), int(rows), int(columns), Status(status), value, pivots, majors, flips, rollbacks, text
    )
