"""Certificates from another exact solver: its answer is taken for what it is, written as a certificate, and judged by
pami.

So an answer of QSopt_ex (the command `esolver`) gets a proved verdict, also where pami's own run has no room for a
number on its way, as long as the answer itself has. Of an infeasible model the other solver tells no multipliers, and
of one whose costs fall without end no direction; both are the answers to models that are made here and always have one:

- multipliers are the duals of the model in which each row may be missed, at a cost of 1 a unit;
- a direction is the cheapest change in which no bound is passed, with each column between -1 and 1.
"""

from __future__ import annotations

import re
import shutil
import subprocess
import tempfile
from dataclasses import dataclass, replace
from fractions import Fraction
from pathlib import Path

from .decimals import decimal_text
from .errors import OtherSolver, ProgramMissing, TookTooLong
from .model import Format, Model
from .program import check
from .source import Source, read_model
from .verdict import Verdict
from .verify import fits

ESOLVER = "esolver"
# An objective of more binary digits is told as `wide`.
BITS = 127
VALUE = re.compile(r"(\S+) = (-?[0-9]+(?:/[0-9]+)?)\Z")


@dataclass(frozen=True)
class Certified:
    """What the other solver's answer claims, the text of its certificate, and what `pami check` says of it."""

    claim: str
    text: str
    verdict: Verdict


@dataclass(frozen=True)
class Solution:
    """What `esolver` writes: a word for the end, and the numbers other than 0 by the names of columns and rows."""

    end: str
    values: dict[str, Fraction]
    duals: dict[str, Fraction]


def certify(
    model: Source,
    *,
    format: Format | None = None,
    solver: str = ESOLVER,
    program: Source | None = None,
    timeout: float | None = None,
) -> Certified:
    """Solves a model by `esolver`, and has `pami check` judge its answer."""
    read = read_model(model, format)
    claim, text = certificate_by(read, solver, timeout)
    return Certified(claim, text, check(model, text, format=format, program=program, timeout=timeout))


def certificate_by(model: Model, solver: str = ESOLVER, timeout: float | None = None) -> tuple[str, str]:
    """The claim and the text of the certificate that `esolver` has for a model."""
    solution = solved(model, solver, timeout)
    if solution.end == "OPTIMAL":
        return "optimal", _optimal_text(model, solution)
    if solution.end == "INFEASIBLE":
        missed = solved(missable(model), solver, timeout)
        lines = [f"r {name} {missed.duals.get(f'c{at}', 0)}" for at, name in enumerate(model.rows)]
        return "infeasible", _text("infeasible", lines)
    if solution.end == "UNBOUNDED":
        change = solved(directions(model), solver, timeout)
        values = [change.values.get(f"x{at}", Fraction(0)) for at in range(len(model.columns))]
        lines = [f"x {name} {value}" for name, value in zip(model.columns, values, strict=True)]
        lines += [f"r {name} {value}" for name, value in zip(model.rows, model.row_values(values), strict=True)]
        return "dual-infeasible", _text("dual-infeasible", lines)
    raise OtherSolver(f"{solver} ended with {solution.end or 'no answer'}, so there is nothing to certify")


def _optimal_text(model: Model, solution: Solution) -> str:
    values = [solution.values.get(f"x{at}", Fraction(0)) for at in range(len(model.columns))]
    duals = [solution.duals.get(f"c{at}", Fraction(0)) for at in range(len(model.rows))]
    objective = model.objective(values)
    lines = [f"objective {objective if fits(objective, BITS) else 'wide'}"]
    for name, value, cost, entries in zip(model.columns, values, model.minimised_costs(), model.entries, strict=True):
        lines.append(
            f"x {name} {value} {cost - sum((entry * duals[row] for row, entry in entries.items()), Fraction(0))}"
        )
    rows = zip(model.rows, model.row_values(values), duals, strict=True)
    return _text("optimal", [*lines, *(f"r {name} {value} {dual}" for name, value, dual in rows)])


def _text(claim: str, lines: list[str]) -> str:
    return "\n".join([f"certificate 1 {claim}", *lines, "end", ""])


# ---- the models whose answers are multipliers and directions


def missable(model: Model) -> Model:
    """The same rows and columns without costs, where each row may be missed on either side for a cost of 1 a unit."""
    made = replace(
        model,
        sense="min",
        constant=Fraction(0),
        costs=[Fraction(0)] * len(model.columns),
        columns=list(model.columns),
        low=list(model.low),
        high=list(model.high),
        entries=list(model.entries),
    )
    for row, sides in enumerate(zip(model.row_low, model.row_high, strict=True)):
        for side, entry in zip(sides, (1, -1), strict=True):
            if side is not None:
                column = made.add_column(f"missed {row} {entry}")
                made.costs[column], made.entries[column] = Fraction(1), {row: Fraction(entry)}
    return made


def directions(model: Model) -> Model:
    """The changes in which no bound is passed, each column's between -1 and 1, and what they cost."""

    def ends(sides: list[Fraction | None], end: int | None) -> list[Fraction | None]:
        free = None if end is None else Fraction(end)
        return [free if side is None else Fraction(0) for side in sides]

    return replace(
        model,
        sense="min",
        constant=Fraction(0),
        costs=model.minimised_costs(),
        row_low=ends(model.row_low, None),
        row_high=ends(model.row_high, None),
        low=ends(model.low, -1),
        high=ends(model.high, 1),
    )


# ---- esolver


def solved(model: Model, solver: str, timeout: float | None) -> Solution:
    """What `esolver` says of the minimum of a model."""
    path = shutil.which(solver)
    if path is None:
        raise ProgramMissing(f"there is no {solver}: install QSopt_ex (on Debian the package qsopt-ex)")
    with tempfile.TemporaryDirectory() as folder:
        file, out = Path(folder) / "model.mps", Path(folder) / "model.sol"
        file.write_text(mps_text(model))
        words = [path, "-O", str(out), str(file)]
        try:
            subprocess.run(
                words, cwd=folder, stdin=subprocess.DEVNULL, capture_output=True, timeout=timeout, check=False
            )
        except subprocess.TimeoutExpired:
            raise TookTooLong(f"{solver} was stopped after {timeout} seconds") from None
        if not out.exists():
            raise OtherSolver(f"{solver} wrote no answer")
        return read_solution(out.read_text())


def read_solution(text: str) -> Solution:
    """What stands in the file that `esolver` writes."""
    end, part = "", ""
    numbers: dict[str, dict[str, Fraction]] = {"VARS:": {}, "PI:": {}}
    for line in text.splitlines():
        found = VALUE.match(line.strip())
        if line.startswith("status") and not end:
            end = line.split()[-1]
        elif found is None:
            part = line.strip()
        elif part in numbers:
            numbers[part][found[1]] = Fraction(found[2])
    return Solution(end, numbers["VARS:"], numbers["PI:"])


def mps_text(model: Model) -> str:
    """The minimum of a model in MPS, with columns `x0`, `x1` and rows `c0`, `c1` and so on.

    Rows without sides are left out. One more row with a column fixed at 0 stands there, as `esolver` takes no model
    without rows.
    """
    sides = list(zip(model.row_low, model.row_high, strict=True))
    kept = {row for row, both in enumerate(sides) if both != (None, None)}
    lines = ["NAME model", "ROWS", " N cost", " L none"]
    lines += [f" {_kind(*sides[row])} c{row}" for row in sorted(kept)]
    lines += ["COLUMNS", " none none 1"]
    for column, (cost, entries) in enumerate(zip(model.minimised_costs(), model.entries, strict=True)):
        lines.append(f" x{column} cost {decimal_text(cost)}")
        lines += [f" x{column} c{row} {decimal_text(value)}" for row, value in entries.items() if row in kept]
    ranges = []
    lines.append("RHS")
    for row in sorted(kept):
        low, high = sides[row]
        side = low if high is None else high
        lines += [f" rhs c{row} {decimal_text(side)}"] if side else []
        if low is not None and high is not None and low != high:
            ranges.append(f" rng c{row} {decimal_text(high - low)}")
    lines += ["RANGES", *ranges] if ranges else []
    lines += ["BOUNDS", " FX bnd none 0"]
    for column, (low, high) in enumerate(zip(model.low, model.high, strict=True)):
        lines.append(f" MI bnd x{column}" if low is None else f" LO bnd x{column} {decimal_text(low)}")
        lines += [f" UP bnd x{column} {decimal_text(high)}"] if high is not None else []
    return "\n".join([*lines, "ENDATA", ""])


def _kind(low: Fraction | None, high: Fraction | None) -> str:
    return "E" if low == high else "G" if high is None else "L"
