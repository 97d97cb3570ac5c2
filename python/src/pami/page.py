"""A page about an answer by jinja2: one file of HTML with the plan and its prices, or with what shows that there is
none.
"""

from __future__ import annotations

import os
from collections.abc import Sequence
from dataclasses import dataclass
from fractions import Fraction
from pathlib import Path
from typing import Any

from .answer import Conflict, Drop, Flip, Major, NoneEnters, Phase, Pivot, Result, Rollback, Status
from .decimals import decimal
from .errors import Overflow, PackageMissing
from .model import Format, Model
from .picture import counted, headline, picture, readable, write
from .replay import Bound, Trace, trace
from .source import Source
from .table import both, ends
from .verify import verify

TEMPLATE = Path(__file__).with_name("page.html")
# So many terms of a row are written out, and so many steps of a run.
TERMS, STEPS = 8, 2000
BOUNDS = {"L": "lower", "U": "upper"}
STANDS = {"B": "in the basis", "L": "at the lower bound", "U": "at the upper bound", "Z": "no bounds, at 0"}
MEANINGS = {
    Status.OPTIMAL: "The columns below are a plan that keeps every rule, and no plan is better, not by the smallest "
    "fraction. Others may be as good.",
    Status.INFEASIBLE: "No plan keeps all rules. Below are rules that can't be kept together; the others needn't be "
    "looked at. Relax one of them and solve again, as another conflict may stand behind this one.",
    Status.DUAL_INFEASIBLE: "Along the direction below the objective gets better without end, and no rule is ever "
    "broken. So there is no best plan; whether there is a plan at all isn't said.",
    Status.LIMIT: "As many pivots were made as were allowed, and the plan isn't there yet. That says nothing of "
    "whether there is one. A higher limit goes on where this run stopped.",
    Status.OVERFLOW: "A number on the way has more than 127 binary digits, so the run stopped. That says nothing of "
    "whether there is a plan. Fewer digits help, and units in which the numbers are of like sizes.",
}


@dataclass(frozen=True)
class Line:
    """A column or row in a table: its numbers as decimals and, where they aren't whole, as fractions."""

    name: str
    value: tuple[str, str]
    low: str
    high: str
    price: tuple[str, str] = ("", "")
    stand: str = ""
    missed: str = ""
    is_zero: bool = False


@dataclass(frozen=True)
class Moved:
    """How far a cost or a bound may be moved: what it is now, and both ends as decimals and as fractions."""

    name: str
    now: tuple[str, str]
    ends: tuple[str, str, str, str]
    stand: str = ""


@dataclass(frozen=True)
class Rule:
    """A row or a column's bound in the story of an infeasible model: what it says, its factor, and what it adds."""

    name: str
    says: str
    factor: str
    adds: str


@dataclass(frozen=True)
class Happening:
    """A line of the log of a run, and the objective and what is missed behind it where the basis was solved there."""

    kind: str
    told: str
    objective: str = ""
    missed: str = ""


def report(
    answer: Source | Result,
    model: Source | Model | None = None,
    *,
    out: str | os.PathLike[str] | None = None,
    format: Format | None = None,
    every: int = 1,
    digits: int = 6,
) -> str:
    """A page about an answer, as one text of HTML, which is written to a file too where one is named.

    `answer` is a result, or a text of `solve` with its model. Decimals have up to `digits` digits behind the point.
    With `every` the run is drawn from the basis at each so many pivots alone.
    """
    template = _template()
    run = trace(answer, model, format=format, every=every)
    told = str(template.render(_Page(run, max(digits, 0)).parts()))
    if out is not None:
        write(out, told.encode())
    return told


def _template() -> Any:
    try:
        import jinja2
    except ImportError as error:
        raise PackageMissing(
            f"pages need jinja2 ({error}). Install it: `apt install python3-jinja2` on Debian, else "
            "`pip install jinja2`"
        ) from None
    environment = jinja2.Environment(
        autoescape=True, undefined=jinja2.StrictUndefined, trim_blocks=True, lstrip_blocks=True
    )
    return environment.from_string(TEMPLATE.read_text(encoding="utf-8"))


def _drawn(run: Trace) -> tuple[str, str]:
    """The picture as a part of a page, or why there is none."""
    try:
        told = picture(run).decode()
    except PackageMissing as error:
        return "", str(error)
    return told[told.index("<svg") :], ""


def _shown(value: Fraction) -> str:
    """A number of a model: as a decimal where that is all, else as a fraction."""
    told = decimal(value, 12)
    return str(value) if told.startswith("~") else told


def _side(value: Bound) -> str:
    return "" if value is None else _shown(value)


@dataclass(frozen=True)
class _Page:
    run: Trace
    digits: int

    def parts(self) -> dict[str, object]:
        """What the template speaks of."""
        run, result = self.run, self.run.result
        head, sizes = headline(run)
        svg, no_picture = _drawn(run)
        has_certificate = result.status in (Status.OPTIMAL, Status.INFEASIBLE, Status.DUAL_INFEASIBLE)
        return {
            "status": result.status.value,
            "title": head,
            "sizes": sizes,
            "sense": result.sense,
            "meaning": MEANINGS[result.status],
            "objective": None if result.objective is None else self.both(result.objective),
            "verdict": str(verify(run.model, result)) if has_certificate else "",
            "overflow": self.overflow(),
            "columns": self.columns(),
            "rows": self.rows(),
            "costs": self.costs(),
            "bounds": self.bounds(),
            "conflict": self.conflict(),
            "ray": self.ray(),
            "basis": result.basis,
            "steps": self.steps(),
            "log": self.log()[:STEPS],
            "more": max(len(self.run.result.events) - STEPS, 0),
            "svg": svg,
            "no_picture": no_picture,
            "every": run.every,
        }

    def steps(self) -> str:
        marks = [counted(sum(it.kind == kind for it in self.run.marks), kind) for kind in ("flip", "drop", "rollback")]
        made = f"{counted(self.run.result.pivots, 'pivot')} in {counted(len(self.run.rounds), 'major')}"
        return f"{made}; {', '.join(marks)}"

    def both(self, value: Fraction) -> tuple[str, str]:
        return both(value, self.digits)

    def overflow(self) -> str:
        problem = self.run.result.problem
        if not isinstance(problem, Overflow):
            return ""
        return f"{problem.op} of {problem.left} and {problem.right}, at {problem.place}"

    # ---- the plan

    def columns(self) -> list[Line]:
        model, result = self.run.model, self.run.result
        sides = list(zip(model.columns, model.low, model.high, strict=True))
        if result.is_optimal:
            prices = [(it.value, it.own_reduced_cost, it.stand) for it in result.columns]
            return self.lines(sides, prices)
        return self.standing("x:", sides, "" if result.basis is None else result.basis.columns)

    def rows(self) -> list[Line]:
        model, result = self.run.model, self.run.result
        sides = list(zip(model.rows, model.row_low, model.row_high, strict=True))
        if result.is_optimal:
            return self.lines(sides, [(it.value, it.own_dual, it.stand) for it in result.rows])
        return self.standing("r:", sides, "" if result.basis is None else result.basis.rows)

    def lines(
        self, sides: Sequence[tuple[str, Bound, Bound]], numbers: Sequence[tuple[Fraction, Fraction, str]]
    ) -> list[Line]:
        """The lines of an optimal answer."""
        return [
            Line(
                readable(name),
                self.both(value),
                _side(low),
                _side(high),
                self.both(price),
                STANDS[stand],
                is_zero=not value and not price,
            )
            for (name, low, high), (value, price, stand) in zip(sides, numbers, strict=True)
        ]

    def standing(self, first: str, sides: Sequence[tuple[str, Bound, Bound]], letters: str) -> list[Line]:
        """Where the limit was reached in phase 2: what the last basis comes to, and what is missed there."""
        run = self.run
        if run.result.status is not Status.LIMIT or run.points[-1].phase != 2:
            return []
        made = []
        for (name, low, high), letter in zip(sides, letters, strict=True):
            value = run.values[first + name]
            short = low - value if low is not None and value < low else Fraction(0)
            over = value - high if high is not None and value > high else Fraction(0)
            missed = f"{decimal(short, self.digits)} too little" if short else ""
            missed = f"{decimal(over, self.digits)} too much" if over else missed
            made.append(
                Line(
                    readable(name),
                    self.both(value),
                    _side(low),
                    _side(high),
                    stand=STANDS[letter],
                    missed=missed,
                    is_zero=not value and not missed,
                )
            )
        return made

    # ---- how far the answer holds

    def costs(self) -> list[Moved]:
        """The range of each cost, in the sense of the file, where ranges were asked for."""
        costs = dict(zip(self.run.model.columns, self.run.model.costs, strict=True))
        told = self.run.result.cost_ranges.items()
        return [Moved(readable(name), self.both(costs[name]), ends(it, self.digits)) for name, it in told]

    def bounds(self) -> list[Moved]:
        """The range of each bound at which a column or a row stands."""
        variables, made = self.run.result.variables, []
        for name, it in self.run.result.bound_ranges.items():
            variable = variables[name]
            stand = BOUNDS[variable.stand]
            made.append(Moved(readable(name), self.both(variable.value), ends(it, self.digits), stand))
        return made

    # ---- why there is no plan, or no best one

    def conflict(self) -> dict[str, object] | None:
        """The story of an infeasible model, by Farkas' lemma."""
        run, result = self.run, self.run.result
        if result.status is not Status.INFEASIBLE or not verify(run.model, result).is_valid:
            return None
        told = result.explain_infeasible()
        return {
            "rows": [self.rule(it) for it in told.rows],
            "columns": [self.rule(it) for it in told.columns],
            "sum": self.total({at: -it.factor for at, it in self.by_column(told.columns)}, self.digits),
            "due": self.exact(told.due),
            "reached": self.exact(told.reached),
            "missing": self.exact(told.due - told.reached),
        }

    def by_column(self, conflicts: Sequence[Conflict]) -> list[tuple[int, Conflict]]:
        numbers = {name: at for at, name in enumerate(self.run.model.columns)}
        return [(numbers[it.variable[2:]], it) for it in conflicts]

    def rule(self, it: Conflict) -> Rule:
        """A row with its sum, or a column alone. A column's factor in the sum is the other way round."""
        is_row = it.variable.startswith("r:")
        name = it.variable[2:]
        says = self.total(self.entries(self.run.model.rows.index(name))) if is_row else readable(name)
        factor = it.factor if is_row else -it.factor
        sign = "≥" if it.factor > 0 else "≤"
        return Rule(
            readable(name),
            f"{says} {sign} {_shown(it.bound)}",
            self.exact(factor),
            self.exact(factor * it.bound),
        )

    def entries(self, row: int) -> dict[int, Fraction]:
        return {column: it[row] for column, it in enumerate(self.run.model.entries) if row in it}

    def exact(self, value: Fraction) -> str:
        """A number in a story: where it is no finite decimal, a fraction and about how much that is."""
        told = _shown(value)
        return f"{told} ({decimal(value, self.digits)})" if "/" in told else told

    def total(self, terms: dict[int, Fraction], digits: int | None = None) -> str:
        """A sum over columns, of its first terms where they are many; with `digits` of rounded decimals."""
        told = []
        for column, value in list(terms.items())[:TERMS]:
            number = _shown(abs(value)) if digits is None else decimal(abs(value), digits)
            size = "" if abs(value) == 1 else f"{number} "
            told.append(f"{'−' if value < 0 else '+'} {size}{readable(self.run.model.columns[column])}")
        if len(terms) > TERMS:
            told.append(f"+ … ({len(terms) - TERMS} more)")
        return " ".join(told).removeprefix("+ ") or "0"

    def ray(self) -> dict[str, object] | None:
        """The story of a direction along which the objective gets better without end."""
        model, result = self.run.model, self.run.result
        if result.status is not Status.DUAL_INFEASIBLE:
            return None

        def changed(first: str, names: list[str], low: list[Bound], high: list[Bound]) -> list[Line]:
            return [
                Line(readable(name), self.both(result.direction[first + name]), _side(below), _side(above))
                for name, below, above in zip(names, low, high, strict=True)
                if result.direction[first + name]
            ]

        changes = [result.direction[f"x:{name}"] for name in model.columns]
        gain = sum((cost * it for cost, it in zip(model.costs, changes, strict=True)), Fraction(0))
        return {
            "columns": changed("x:", model.columns, model.low, model.high),
            "rows": changed("r:", model.rows, model.row_low, model.row_high),
            "gain": self.both(gain),
        }

    # ---- the run

    def log(self) -> list[Happening]:
        """The events of the run in words, with the variables at their places."""
        points = {(it.phase, it.pivots): it for it in self.run.points}
        head = [f"r:{name}" for name in self.run.model.rows]
        phase = pivots = 0
        made = []
        for event in self.run.result.events:
            kind = type(event).__name__.lower()
            match event:
                case Phase(number):
                    phase, told = number, f"phase {number} begins"
                case Major(number, mode, places):
                    told = f"major {number}{', a single one,' if mode == 'single' else ''} chooses "
                    told += ", ".join(readable(head[place]) for place in places)
                case Drop(place):
                    told = f"{readable(head[place])} is dropped"
                case Flip(variable, to):
                    told = f"{readable(variable)} flips to its {BOUNDS[to]} bound"
                case Pivot(number, place, leaving, to, entering, price):
                    pivots, head[place] = number, entering
                    told = f"pivot {number}: {readable(leaving)} goes to its {BOUNDS[to]} bound, "
                    told += f"{readable(entering)} enters; a unit of the bound costs {_shown(price)}"
                case NoneEnters(_, variable):
                    told = f"nothing can enter for {readable(variable)}"
                case Rollback(major, spot, op, left, right):
                    told = f"major {major} is rolled back: {op} of {left} and {right}, at {spot}, doesn't fit"
            point = points.get((phase, pivots)) if kind in ("phase", "pivot") else None
            shown = ("", "") if point is None else (self.both(point.objective)[0], self.both(point.infeasibility)[0])
            made.append(Happening(kind, told, *shown))
        return made
