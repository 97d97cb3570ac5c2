"""A solver class for PuLP: `problem.solve(PAMI_CMD())`. The one module that needs a package of others, `pulp`.

It writes its own LP file, since PuLP's loses the constant and digits: columns and rows by number, the sense and the
constant kept, each float as its shortest decimal, and fractions kept by multiplying the row that they stand in.
"""

from __future__ import annotations

import math
import operator
import os
from collections.abc import Callable
from dataclasses import dataclass, field
from decimal import Decimal
from fractions import Fraction
from pathlib import Path
from typing import Any

import pulp
from pulp import constants
from pulp.apis.core import LpSolver_CMD, PulpSolverError

from .answer import Result, Status
from .decimals import decimal_text, factor_of
from .errors import PamiError, ProgramMissing, TookTooLong
from .program import find_program, solve

SIGNS = {constants.LpConstraintLE: "<=", constants.LpConstraintEQ: "=", constants.LpConstraintGE: ">="}
STATUSES = {
    Status.OPTIMAL: constants.LpStatusOptimal,
    Status.INFEASIBLE: constants.LpStatusInfeasible,
    Status.LIMIT: constants.LpStatusNotSolved,
    Status.OVERFLOW: constants.LpStatusUndefined,
}


class IntegerColumns(PulpSolverError):  # type: ignore[misc]
    """The model has whole columns or sets, which aren't solved here. With `mip=False` it is relaxed."""


def exact(value: Any) -> Fraction:
    """The fraction that a number means: of a float its shortest decimal, so that 0.1 is 1/10."""
    if isinstance(value, (int, Fraction, Decimal)):
        return Fraction(value)
    try:
        return Fraction(operator.index(value))
    except TypeError:
        return Fraction(repr(float(value)))


def is_infinite(value: Any) -> bool:
    """Whether a bound isn't there."""
    return value is None or (isinstance(value, float) and math.isinf(value)) or abs(exact(value)) >= 10**20


@dataclass
class Writer:
    """The LP text of a problem. `factors` has what the objective and each row were multiplied by. The rows of `bounds`,
    of which the column is kept, stand for bounds that no finite decimal tells.
    """

    problem: Any
    has_costs: bool
    lines: list[str] = field(default_factory=list)
    factors: list[int] = field(default_factory=list)
    bounds: list[int] = field(default_factory=list)

    def text(self) -> str:
        problem, variables = self.problem, self.problem.variables()
        at = {id(variable): number for number, variable in enumerate(variables)}
        costs = [(at[id(it)], exact(cost)) for it, cost in problem.objective.items()] if self.has_costs else []
        constant = exact(problem.objective.constant) if self.has_costs else Fraction(0)
        self.lines.append("Maximize" if problem.sense == constants.LpMaximize else "Minimize")
        factor = factor_of([constant, *(cost for _, cost in costs)])
        self.factors.append(factor)
        self.lines += [" " + self.total(costs, factor), f" + {decimal_text(factor * constant)}", "Subject To"]
        for number, row in enumerate(problem.constraints.values()):
            terms = [(at[id(it)], exact(value)) for it, value in row.items()]
            self.row(f"c{number}", terms, row.sense, -exact(row.constant))
        sides = []
        for number, variable in enumerate(variables):
            sides += self.bound(number, variable.lowBound, constants.LpConstraintGE)
            sides += self.bound(number, variable.upBound, constants.LpConstraintLE)
        return "\n".join([*self.lines, "Bounds", " none = 0", *sides, "End", ""])

    def total(self, terms: list[tuple[int, Fraction]], factor: int) -> str:
        """A sum in as many lines as terms. `none` is a column fixed at 0, for sums without terms."""
        return "\n  ".join([f"+ {decimal_text(factor * value)} x{number}" for number, value in terms] or ["0 none"])

    def row(self, name: str, terms: list[tuple[int, Fraction]], sense: int, side: Fraction) -> None:
        factor = factor_of([side, *(value for _, value in terms)])
        self.factors.append(factor)
        self.lines.append(f" {name}: {self.total(terms, factor)} {SIGNS[sense]} {decimal_text(factor * side)}")

    def bound(self, number: int, value: Any, sense: int) -> list[str]:
        """The line of a bound; one that no finite decimal tells is a row."""
        sign = SIGNS[sense]
        if is_infinite(value):
            return [f" x{number} {sign} {'-' if sense == constants.LpConstraintGE else ''}inf"]
        side = exact(value)
        factor = factor_of([side])
        if factor == 1:
            return [f" x{number} {sign} {decimal_text(side)}"]
        self.bounds.append(number)
        self.row(f"b{len(self.bounds)}", [(number, Fraction(1))], sense, side)
        return [f" x{number} {sign} {'-' if sense == constants.LpConstraintGE else ''}inf"]


class PAMI_CMD(LpSolver_CMD):  # type: ignore[misc]  # noqa: N801
    """Solves continuous models exactly.

    `limit` is how many pivots are allowed, `timeLimit` how many seconds. With `exact` the values, duals and reduced
    costs that PuLP gets are fractions, else floats. `result` has the last run whole: its columns are `x0`, `x1` and so
    on, in the order of `problem.variables()`, and its rows `c0`, `c1` in that of `problem.constraints`.
    """

    name = "PAMI_CMD"

    def __init__(
        self,
        path: str | None = None,
        keepFiles: bool = False,  # noqa: N803
        mip: bool = True,
        msg: bool = True,
        options: list[str] | None = None,
        timeLimit: float | None = None,  # noqa: N803
        limit: int | None = None,
        exact: bool = False,
    ) -> None:
        super().__init__(path=path, keepFiles=keepFiles, mip=mip, msg=msg, options=options, timeLimit=timeLimit)
        self.limit, self.exact = limit, exact
        self.result: Result | None = None

    def copy(self) -> PAMI_CMD:
        other: PAMI_CMD = super().copy()
        other.limit, other.exact, other.timeLimit = self.limit, self.exact, self.timeLimit
        return other

    def defaultPath(self) -> str | None:  # noqa: N802
        try:
            return find_program()
        except ProgramMissing:
            return None

    def available(self) -> bool:
        return self.path is not None and os.access(self.path, os.X_OK)

    def actualSolve(self, lp: Any) -> int:  # noqa: N802
        """Solves a problem, and gives it values, duals, reduced costs and slacks."""
        if self.mip and (lp.isMIP() or lp.sos1 or lp.sos2):
            raise IntegerColumns(
                "whole columns and sets aren't solved here; PAMI_CMD(mip=False) solves the relaxed model"
            )
        is_crossed = any(_are_crossed(variable) for variable in lp.variables())
        status = int(constants.LpStatusInfeasible if is_crossed else self.run(lp))
        lp.assignStatus(status)
        return status

    def run(self, lp: Any) -> Any:
        """The status of a problem in PuLP's numbers; where it is optimal the problem has its values then."""
        self.result = None
        writer = Writer(lp, has_costs=True)
        _clear(lp)
        try:
            result = self.solved(lp, writer.text())
            self.result = result
            if self.msg:
                print(f"pami: {result.status}, {result.pivots} pivots")
            if result.status is Status.DUAL_INFEASIBLE:
                # Better without end is only what can be done at all.
                plan = self.solved(lp, Writer(lp, has_costs=False).text())
                return constants.LpStatusUnbounded if plan.is_optimal else STATUSES[plan.status]
        except TookTooLong:
            return constants.LpStatusNotSolved
        except PamiError as error:
            raise PulpSolverError(f"PAMI_CMD: {error}") from error
        if result.is_optimal:
            self.assign(lp, writer, result)
        return STATUSES[result.status]

    def solved(self, lp: Any, text: str) -> Result:
        result = solve(text, format="lp", limit=self.limit, program=self.path, timeout=self.timeLimit)
        if self.keepFiles:
            Path(f"{lp.name}-pulp.lp").write_text(text)
            Path(f"{lp.name}-pulp.txt").write_text(result.text)
        return result

    def assign(self, lp: Any, writer: Writer, result: Result) -> None:
        """Gives a problem what an optimal result says, in the sense of the problem and without the factors of its
        rows.
        """
        shown: Callable[[Fraction], Fraction | float] = Fraction if self.exact else float
        columns = {column.name: column for column in result.columns}
        scale = writer.factors[0]
        duals = [factor * row.own_dual / scale for factor, row in zip(writer.factors[1:], result.rows, strict=True)]
        reduced = [Fraction(0)] * len(lp.variables())
        for number, dual in zip(writer.bounds, duals[len(lp.constraints) :], strict=True):
            reduced[number] += dual
        values = []
        for number, variable in enumerate(lp.variables()):
            column = columns[f"x{number}"]
            values.append(column.value)
            variable.varValue = shown(column.value)
            variable.dj = shown(reduced[number] + column.own_reduced_cost / scale)
        at = {id(variable): value for variable, value in zip(lp.variables(), values, strict=True)}
        for row, dual in zip(lp.constraints.values(), duals[: len(lp.constraints)], strict=True):
            done = exact(row.constant) + sum((exact(entry) * at[id(it)] for it, entry in row.items()), Fraction(0))
            row.pi, row.slack = shown(dual), shown(-done)


def _are_crossed(variable: Any) -> bool:
    low, high = variable.lowBound, variable.upBound
    return not is_infinite(low) and not is_infinite(high) and exact(low) > exact(high)


def _clear(lp: Any) -> None:
    """Takes away what an earlier run said."""
    for variable in lp.variables():
        variable.varValue = variable.dj = None
    for row in lp.constraints.values():
        row.pi = row.slack = None


def register() -> None:
    """Lets PuLP's `getSolver` and `listSolvers` know the class by its name."""
    if PAMI_CMD not in pulp.apis._all_solvers:
        pulp.apis._all_solvers.append(PAMI_CMD)
