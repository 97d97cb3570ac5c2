"""A run replayed. At each pivot of a text the basis is solved afresh in unbounded fractions, with nothing of the text
but its pivots and flips, over the model as this package's own readers read it.
"""

from __future__ import annotations

import os
from collections.abc import Iterator, Mapping
from dataclasses import dataclass, field, replace
from fractions import Fraction
from pathlib import Path
from typing import Literal

from .answer import Drop, Flip, Letter, Major, NoneEnters, Phase, Pivot, Result, Rollback, Status, read_result
from .equations import RIGHT, solved
from .errors import OtherModel, OtherRun
from .model import Format, Model
from .source import Source, is_text, read_model, read_text

ZERO = Fraction(0)
Bound = Fraction | None


@dataclass(frozen=True)
class Point:
    """The basis behind so many pivots, solved afresh. In phase 1 all numbers are those of the boxes.

    - `minimised`, `objective`: the objective as the method makes it small, and in the sense of the file.
    - `infeasibility`: how far variables are outside of their bounds, added up; `missed` says of how many.
    """

    phase: int
    pivots: int
    minimised: Fraction
    objective: Fraction
    infeasibility: Fraction
    missed: int


@dataclass(frozen=True)
class Round:
    """A major that was kept: its number and mode, the places that it chose, and how many pivots were made when it
    began and ended.
    """

    number: int
    mode: str
    places: tuple[int, ...]
    phase: int
    first: int
    last: int


@dataclass(frozen=True)
class Mark:
    """What happened beside the pivots. `pivots` says at which: a flip at the pivot that it belongs to, all else behind
    those that were made. `what` is the variable, for a rollback what didn't fit.
    """

    kind: Literal["flip", "drop", "rollback", "none"]
    phase: int
    pivots: int
    what: str


@dataclass(frozen=True)
class Trace:
    """A run, replayed: a point for the start of each phase and for each pivot, or, with `every`, for each so many and
    the last one of a phase. `name` is the name of the model's file, or empty; `values` has what all variables are at
    the last point, as `x:bread` and `r:energy`.
    """

    result: Result = field(repr=False)
    model: Model = field(repr=False, compare=False)
    name: str
    every: int
    points: tuple[Point, ...]
    rounds: tuple[Round, ...]
    marks: tuple[Mark, ...]
    values: Mapping[str, Fraction] = field(repr=False)

    @property
    def phases(self) -> tuple[int, ...]:
        """The phases of the run, in order."""
        return tuple(dict.fromkeys(point.phase for point in self.points))

    def at(self, phase: int) -> tuple[Point, ...]:
        """The points of a phase."""
        return tuple(point for point in self.points if point.phase == phase)


def trace(
    answer: Source | Result, model: Source | Model | None = None, *, format: Format | None = None, every: int = 1
) -> Trace:
    """Replays the run that an answer tells: a result, or a text of `solve` with its model.

    With `every` the basis is solved at each so many pivots alone, and at the last one of each phase. A text that isn't
    of this model is an `OtherModel`: its names, a pivot that can't be one, or a last basis with other values.
    """
    if every < 1:
        raise ValueError(f"every {every} pivots there is no point: it is at least 1")
    read, name = _model_of(answer, model, format)
    text = answer.text if isinstance(answer, Result) else read_text(answer)
    result = answer if isinstance(answer, Result) and answer.model is read else read_result(text, read)
    walk = _Walk(read, result, every)
    walk.run()
    values = dict(zip(walk.names, walk.values, strict=False))
    return Trace(result, read, name, every, tuple(walk.points), tuple(walk.rounds), tuple(walk.marks), values)


def _model_of(answer: Source | Result, model: Source | Model | None, format: Format | None) -> tuple[Model, str]:
    """The model, and the name of its file where it has one."""
    if isinstance(model, Model):
        return model, ""
    if model is not None:
        return read_model(model, format), "" if is_text(model) else Path(os.fspath(model)).name
    if isinstance(answer, Result) and answer.model is not None:
        return answer.model, ""
    raise ValueError("the bounds and costs are those of the model: give it too")


class _Walk:
    """The basis that the pivots of a text have come to. Variables are the columns and behind them the rows; a row's
    value is its left-hand side.
    """

    def __init__(self, model: Model, result: Result, every: int) -> None:
        self.model, self.result, self.every = model, result, every
        self.size = len(model.columns)
        self.names = [f"x:{name}" for name in model.columns] + [f"r:{name}" for name in model.rows]
        self.numbers = {name: number for number, name in enumerate(self.names)}
        self.costs = [*model.minimised_costs(), *(ZERO for _ in model.rows)]
        self.sign = 1 if model.sense == "min" else -1
        self.own: list[tuple[Bound, Bound]] = [
            *zip(model.low, model.high, strict=True),
            *zip(model.row_low, model.row_high, strict=True),
        ]
        self.bounds = self.own
        self.stands: list[Letter] = []
        self.head: list[int] = []
        self.phase = self.pivots = 0
        self.values: list[Fraction] = []
        self.is_solved = False
        self.points: list[Point] = []
        self.rounds: list[Round] = []
        self.marks: list[Mark] = []

    def fault(self, why: str) -> OtherRun:
        return OtherRun(self.pivots, why)

    def number(self, variable: str) -> int:
        if variable not in self.numbers:
            raise OtherModel
        return self.numbers[variable]

    # ---- the events

    def run(self) -> None:
        flips = 0
        for event in self.result.events:
            match event:
                case Phase(number):
                    self.begin(number)
                case Major(number, mode, places):
                    self.check_places(places)
                    self.rounds.append(Round(number, mode, places, self.phase, self.pivots, self.pivots))
                case Drop(place):
                    self.check_places((place,))
                    self.mark("drop", self.names[self.head[place]])
                case Flip(variable, to):
                    self.flip(variable, to)
                    flips += 1
                case Pivot():
                    self.pivot(event)
                    flips = 0
                case NoneEnters(place, variable):
                    self.check_places((place,))
                    if self.names[self.head[place]] != variable:
                        raise self.fault(f"{variable} isn't at place {place}")
                    self.mark("none", variable)
                case Rollback(major, place_word, op):
                    self.mark("rollback", f"major {major}: {op} at {place_word}")
        if flips:
            raise self.fault("there is a flip and no pivot behind it")
        self.end_phase()
        if self.phase:
            self.compare()

    def mark(self, kind: Literal["flip", "drop", "rollback", "none"], what: str) -> None:
        self.marks.append(Mark(kind, self.phase, self.pivots, what))

    def check_places(self, places: tuple[int, ...]) -> None:
        if not self.phase or max(places) >= len(self.head):
            raise self.fault(f"there is no place {max(places)}")

    def begin(self, phase: int) -> None:
        """Begins a phase at the basis that it begins with."""
        if phase not in (1, 2) or phase <= self.phase:
            raise self.fault(f"no phase {phase} can begin")
        self.end_phase()
        if not self.phase:
            self.bounds = [_box(*sides) for sides in self.own] if phase == 1 else self.own
            pairs = zip(self.bounds[: self.size], self.costs[: self.size], strict=True)
            self.stands = [_start(low, high, cost) for (low, high), cost in pairs]
            self.stands += ["B"] * len(self.model.rows)
            self.head = list(range(self.size, len(self.names)))
        else:
            prices = self.prices()
            self.bounds = self.own
            self.stands = [
                "B" if stand == "B" else _start(low, high, price)
                for stand, (low, high), price in zip(self.stands, self.own, prices, strict=True)
            ]
        self.phase, self.is_solved = phase, False
        self.point()

    def end_phase(self) -> None:
        if self.phase and not self.is_solved:
            self.point()

    def flip(self, variable: str, to: str) -> None:
        number = self.number(variable)
        if not self.phase or {self.stands[number], to} != {"L", "U"} or None in self.bounds[number]:
            raise self.fault(f"{variable} can't go to its bound {to}")
        self.stands[number] = "L" if to == "L" else "U"
        self.marks.append(Mark("flip", self.phase, self.pivots + 1, variable))

    def pivot(self, pivot: Pivot) -> None:
        self.check_places((pivot.place,))
        leaving, entering = self.number(pivot.leaving), self.number(pivot.entering)
        if self.head[pivot.place] != leaving:
            raise self.fault(f"{pivot.leaving} isn't at place {pivot.place}")
        if self.stands[entering] == "B" or pivot.number != self.pivots + 1 or not self.rounds:
            raise self.fault(f"{pivot.entering} can't enter with pivot {pivot.number}")
        low, high = self.bounds[leaving]
        bound = low if pivot.to == "L" else high
        if pivot.to not in ("L", "U") or bound is None:
            raise self.fault(f"{pivot.leaving} can't leave to its bound {pivot.to}")
        if self.is_solved and not (self.values[leaving] < bound if pivot.to == "L" else self.values[leaving] > bound):
            raise self.fault(f"{pivot.leaving} isn't beyond its bound {pivot.to}")
        self.head[pivot.place] = entering
        self.stands[entering], self.stands[leaving] = "B", "L" if pivot.to == "L" else "U"
        self.pivots += 1
        self.is_solved = False
        self.rounds[-1] = replace(self.rounds[-1], last=self.pivots)
        if self.pivots % self.every == 0:
            self.point()

    # ---- the basis

    def point(self) -> None:
        """Solves the basis, and keeps what it comes to."""
        self.values = self.solve()
        self.is_solved = True
        missed = [_distance(self.values[it], *self.bounds[it]) for it in self.head]
        minimised = sum((cost * it for cost, it in zip(self.costs, self.values, strict=True) if cost and it), ZERO)
        constant = self.model.constant if self.phase == 2 else ZERO
        self.points.append(
            Point(
                self.phase,
                self.pivots,
                minimised + self.sign * constant,
                self.sign * minimised + constant,
                sum(missed, ZERO),
                sum(1 for it in missed if it),
            )
        )

    def standing(self, number: int) -> Fraction:
        """The value of a variable that isn't in the basis."""
        low, high = self.bounds[number]
        return (low if self.stands[number] == "L" else high if self.stands[number] == "U" else None) or ZERO

    def basic_columns(self) -> Iterator[int]:
        return (number for number in range(self.size) if self.stands[number] == "B")

    def solve(self) -> list[Fraction]:
        """The values of all variables. The rows that are at a bound are equations for the columns in the basis; each
        other row is what it adds up to.
        """
        stands = enumerate(self.stands[: self.size])
        columns = [ZERO if stand == "B" else self.standing(number) for number, stand in stands]
        equations: dict[int, dict[int, Fraction]] = {}
        for row, total in enumerate(self.model.row_values(columns)):
            if self.stands[self.size + row] != "B":
                equations[row] = {RIGHT: self.standing(self.size + row) - total}
        for column in self.basic_columns():
            for row, entry in self.model.entries[column].items():
                if row in equations:
                    equations[row][column] = entry
        for column, value in self.unknowns(list(equations.values())).items():
            columns[column] = value
        return columns + self.model.row_values(columns)

    def prices(self) -> list[Fraction]:
        """The reduced costs of all columns and the duals of all rows; those in the basis have none."""
        equations = []
        for column in self.basic_columns():
            entries = self.model.entries[column]
            equation = {row: entry for row, entry in entries.items() if self.stands[self.size + row] != "B"}
            equations.append({RIGHT: self.costs[column], **equation})
        found = self.unknowns(equations)
        duals = [found.get(row, ZERO) for row in range(len(self.model.rows))]
        reduced = [
            cost - sum((entry * duals[row] for row, entry in entries.items()), ZERO)
            for cost, entries in zip(self.costs, self.model.entries, strict=False)
        ]
        return reduced + duals

    def unknowns(self, equations: list[dict[int, Fraction]]) -> dict[int, Fraction]:
        found = solved(equations)
        if found is None:
            raise self.fault("the variables in the basis can't be one: its equations have no single solution")
        return found

    def compare(self) -> None:
        """Whether the last basis is that of the answer."""
        told = self.result
        if told.basis is not None and "".join(self.stands) != told.basis.columns + told.basis.rows:
            raise self.fault("the last basis isn't the one of its line `basis`")
        values = [it.value for it in told.columns] + [it.value for it in told.rows]
        if told.status is Status.OPTIMAL and values != self.values:
            raise self.fault("the columns and rows have other values than the answer tells")


def _box(low: Bound, high: Bound) -> tuple[Fraction, Fraction]:
    """The bounds in phase 1: what is open to one side or both has room there."""
    if low is not None and high is not None:
        return ZERO, ZERO
    return Fraction(-1 if low is None else 0), Fraction(1 if high is None else 0)


def _start(low: Bound, high: Bound, price: Fraction) -> Letter:
    """Where a variable outside of the basis stands when a phase begins."""
    if low is None:
        return "Z" if high is None else "U"
    return "L" if high is None or low == high or price >= 0 else "U"


def _distance(value: Fraction, low: Bound, high: Bound) -> Fraction:
    if low is not None and value < low:
        return low - value
    return value - high if high is not None and value > high else ZERO
