"""The text that `pami solve` writes, read into a `Result`."""

from __future__ import annotations

import json
import re
from collections.abc import Mapping
from dataclasses import dataclass, field, replace
from enum import StrEnum
from fractions import Fraction
from typing import Literal, NoReturn

from .decimals import decimal
from .errors import (
    DualInfeasible,
    Infeasible,
    LimitReached,
    NotOptimal,
    OtherModel,
    OtherProgram,
    Overflow,
    TextCut,
    TextFault,
)
from .model import Model, Sense
from .ranges import End, Range

Letter = Literal["B", "L", "U", "Z"]
LETTERS: dict[str, Letter] = {"B": "B", "L": "L", "U": "U", "Z": "Z"}
NUMBER = re.compile(r"(?:0|-?[1-9][0-9]*)(?:/[1-9][0-9]*)?\Z")


class Status(StrEnum):
    """What a run came to."""

    OPTIMAL = "optimal"
    INFEASIBLE = "infeasible"
    DUAL_INFEASIBLE = "dual-infeasible"
    LIMIT = "limit"
    OVERFLOW = "overflow"


@dataclass(frozen=True)
class Phase:
    """The method begins phase 1 or 2."""

    number: int


@dataclass(frozen=True)
class Major:
    """Major `number` chose these places of the basis, in this order."""

    number: int
    mode: str
    places: tuple[int, ...]


@dataclass(frozen=True)
class Drop:
    """The row at this place, which was chosen, is left out of the rest of its major."""

    place: int


@dataclass(frozen=True)
class Flip:
    """A variable went to its other bound."""

    variable: str
    to: str


@dataclass(frozen=True)
class Pivot:
    """`leaving` left this place to its bound `to`, and `entering` took it; a unit of the bound costs `price`."""

    number: int
    place: int
    leaving: str
    to: str
    entering: str
    price: Fraction


@dataclass(frozen=True)
class NoneEnters:
    """`variable`, at this place, is out of its bounds, and none can enter for it."""

    place: int
    variable: str


@dataclass(frozen=True)
class Rollback:
    """Of this major nothing is kept, as an operation didn't fit."""

    major: int
    place: str
    op: str
    left: Fraction
    right: Fraction


Event = Phase | Major | Drop | Flip | Pivot | NoneEnters | Rollback


@dataclass(frozen=True)
class Column:
    """A column of an optimal answer. `reduced_cost` is as minimised, `own_reduced_cost` in the sense of the file: how
    much the objective grows with a unit more of it. `stand` is its letter in the basis. Where ranging was asked for,
    `cost_range` is that of its cost in the file, and `bound_range` that of the bound at which it stands, if it does.
    """

    name: str
    value: Fraction
    reduced_cost: Fraction
    own_reduced_cost: Fraction
    stand: Letter
    cost_range: Range | None = None
    bound_range: Range | None = None

    def decimal(self, digits: int = 6) -> str:
        return decimal(self.value, digits)


@dataclass(frozen=True)
class Row:
    """A row of an optimal answer. `dual` is as minimised, `own_dual` in the sense of the file: how much the objective
    grows with a unit more on the right-hand side. `stand` is its letter in the basis. Where ranging was asked for,
    `bound_range` is that of the side at which it stands, if it does.
    """

    name: str
    value: Fraction
    dual: Fraction
    own_dual: Fraction
    stand: Letter
    bound_range: Range | None = None

    def decimal(self, digits: int = 6) -> str:
        return decimal(self.value, digits)


@dataclass(frozen=True)
class Basis:
    """A letter for each column and for each row: `B` in the basis, `L` and `U` at a bound, `Z` without bounds, at 0."""

    columns: str
    rows: str


@dataclass(frozen=True)
class Conflict:
    """A row or column of an explanation: `factor` times its `bound`, the lower one above 0 and the upper one below."""

    variable: str
    factor: Fraction
    bound: Fraction

    def __str__(self) -> str:
        return f"{self.variable} {'>=' if self.factor > 0 else '<='} {self.bound}"


@dataclass(frozen=True)
class Explanation:
    """Why no plan keeps all rows. The rows, each with its factor, add up to at least `due`. The columns' own bounds let
    the same sum be `reached` at most, which is less.
    """

    rows: tuple[Conflict, ...]
    columns: tuple[Conflict, ...]
    due: Fraction
    reached: Fraction

    def __str__(self) -> str:
        lines = ["These rows can't be kept together:", *(f"  {row}, times {row.factor}" for row in self.rows)]
        lines.append(
            f"They add up to at least {self.due}, but the bounds of columns let the sum be {self.reached} at most."
        )
        if self.columns:
            lines.append("The bounds that matter:")
            lines += [f"  {column}, with {-column.factor} for each in the sum" for column in self.columns]
        return "\n".join(lines)


@dataclass(frozen=True)
class Result:
    """What a run came to. `model` is what this package's own reader read of the file, or None where only a text was
    read; `text` is what the program wrote, so `check` takes the result as a certificate.

    - `objective`: of the file, summed here where the text says `wide`; None where there is no plan, or no model to sum
      it with.
    - `columns`, `rows`: of an optimal answer, in the order of the file; empty for others.
    - `multipliers`: of an infeasible answer, a number for each row.
    - `direction`: of a dual infeasible answer, a number for each column and row, as `x:bread` and `r:energy`.
    - `basis`: of an optimal answer, and where the limit was reached.
    """

    status: Status
    sense: Sense
    sizes: tuple[int, int, int]
    objective: Fraction | None
    columns: tuple[Column, ...]
    rows: tuple[Row, ...]
    multipliers: Mapping[str, Fraction]
    direction: Mapping[str, Fraction]
    basis: Basis | None
    events: tuple[Event, ...]
    problem: NotOptimal | None
    text: str = field(repr=False)
    model: Model | None = field(repr=False, compare=False)

    @property
    def is_optimal(self) -> bool:
        return self.status is Status.OPTIMAL

    @property
    def variables(self) -> dict[str, Column | Row]:
        """The columns and rows of an optimal answer by name, as `x:bread` and `r:energy`."""
        named: dict[str, Column | Row] = {f"x:{column.name}": column for column in self.columns}
        return named | {f"r:{row.name}": row for row in self.rows}

    @property
    def cost_ranges(self) -> dict[str, Range]:
        """How far the cost of each column may be moved, where ranging was asked for."""
        return {column.name: column.cost_range for column in self.columns if column.cost_range is not None}

    @property
    def bound_ranges(self) -> dict[str, Range]:
        """How far the bound may be moved at which a column or row stands, as `x:bread` and `r:energy`."""
        told = self.variables.items()
        return {variable: it.bound_range for variable, it in told if it.bound_range is not None}

    @property
    def pivots(self) -> int:
        return sum(isinstance(event, Pivot) for event in self.events)

    def optimal(self) -> Result:
        """The result itself where it is optimal; else the error that names what it is."""
        if self.problem is not None:
            raise self.problem
        return self

    def __getitem__(self, name: str) -> Fraction:
        """The value of a column by its name."""
        for column in self.columns:
            if column.name == name:
                return column.value
        raise KeyError(name)

    def explain_infeasible(self) -> Explanation:
        """The rows and bounds that contradict each other, by Farkas' lemma."""
        if self.status is not Status.INFEASIBLE:
            raise ValueError(f"this result is {self.status}, so there is nothing infeasible to explain")
        if self.model is None:
            raise ValueError("the bounds are those of the model: give it to read_result too")
        model = self.model
        factors = [self.multipliers[row] for row in model.rows]
        rows = [
            Conflict(f"r:{name}", factor, _bound(low, high, factor))
            for name, factor, low, high in zip(model.rows, factors, model.row_low, model.row_high, strict=True)
            if factor
        ]
        columns = []
        for name, entries, low, high in zip(model.columns, model.entries, model.low, model.high, strict=True):
            factor = -sum((factors[row] * entry for row, entry in entries.items()), Fraction(0))
            if factor:
                columns.append(Conflict(f"x:{name}", factor, _bound(low, high, factor)))
        due = sum((it.factor * it.bound for it in rows), Fraction(0))
        reached = -sum((it.factor * it.bound for it in columns), Fraction(0))
        return Explanation(tuple(rows), tuple(columns), due, reached)

    def decimals(self, digits: int = 6) -> dict[str, str]:
        """The value of each column as a decimal; see `pami.decimal`."""
        return {column.name: column.decimal(digits) for column in self.columns}

    def to_json(self, indent: int | None = None) -> str:
        """All but the model and the text as JSON. Fractions are texts, as `-1/4`, and ranges two of them."""
        told: dict[str, object] = {
            "status": self.status.value,
            "sense": self.sense,
            "sizes": dict(zip(("rows", "columns", "entries"), self.sizes, strict=True)),
            "objective": None if self.objective is None else str(self.objective),
            "columns": [_told(column) for column in self.columns],
            "rows": [_told(row) for row in self.rows],
            "multipliers": {name: str(value) for name, value in self.multipliers.items()},
            "direction": {name: str(value) for name, value in self.direction.items()},
            "basis": None if self.basis is None else _told(self.basis),
            "events": [_told(event, event=type(event).__name__) for event in self.events],
            "problem": None if self.problem is None else str(self.problem),
        }
        return json.dumps(told, indent=indent)


def _told(record: object, **more: object) -> dict[str, object]:
    return more | {name: _shown(it) for name, it in vars(record).items()}


def _shown(value: object) -> object:
    """A number as a text, and a range as the texts of its ends."""
    if isinstance(value, Range):
        return list(value.ends())
    return str(value) if isinstance(value, Fraction) else value


def _bound(low: Fraction | None, high: Fraction | None, factor: Fraction) -> Fraction:
    bound = low if factor > 0 else high
    if bound is None:
        raise ValueError("the certificate doesn't hold: a factor stands at a bound that isn't there")
    return bound


def number(word: str) -> Fraction | None:
    """A number as the program prints it, or None."""
    if NUMBER.match(word) is None:
        return None
    value = Fraction(word)
    return value if str(value) == word else None


class _Lines:
    """The lines of a text. A text that ends within one is cut, and so is one that ends where another is due."""

    def __init__(self, text: str) -> None:
        self.lines = text.split("\n")
        self.is_whole = not self.lines[-1]
        if self.is_whole:
            self.lines.pop()
        self.at = 0

    def next(self) -> list[str]:
        if self.at >= len(self.lines) or (self.at == len(self.lines) - 1 and not self.is_whole):
            raise TextCut(
                f"the text ends early, in line {self.at + 1}: it was cut, or its run was stopped. Solve again."
            )
        self.at += 1
        return self.lines[self.at - 1].removesuffix("\r").split(" ")

    def fault(self) -> NoReturn:
        raise TextFault(self.at, self.lines[self.at - 1])

    def number(self, word: str) -> Fraction:
        value = number(word)
        return self.fault() if value is None else value

    def end(self, word: str, infinite: str) -> End:
        """The end of a range."""
        if word in (infinite, "wide"):
            return None if word == infinite else "wide"
        return self.number(word)

    def goes_on(self, first: str) -> bool:
        """Whether there is a next line with this first word, or the beginning of a line."""
        if self.at == len(self.lines):
            return False
        return self.lines[self.at].split(" ")[0] == first or (self.at == len(self.lines) - 1 and not self.is_whole)

    def count(self, word: str) -> int:
        return int(word) if re.fullmatch("[0-9]+", word) else self.fault()

    def due(self, words: list[str], first: str, count: int) -> None:
        if words[0] != first or len(words) != count:
            self.fault()


def read_result(text: str, model: Model | None = None, *, ranging: bool = False) -> Result:
    """The result that a text of `pami solve` tells. Without the model the sense is taken for a minimum, so the numbers
    in the sense of the file are those of a minimum, and a `wide` objective isn't known.

    Ranges are read where they stand; with `ranging` an optimal answer without them was cut.
    """
    lines = _Lines(text)
    if lines.next() != ["pami", "1"]:
        raise OtherProgram(
            "the text doesn't begin with the line `pami 1`: it is none of an answer, or of another version of pami"
        )
    words = lines.next()
    lines.due(words, "model", 4)
    sizes = (lines.count(words[1]), lines.count(words[2]), lines.count(words[3]))
    if model is not None and sizes != model.sizes():
        raise OtherModel
    events = []
    words = lines.next()
    while words[0] != "answer":
        events.append(_event(lines, words))
        words = lines.next()
    return _Answer(lines, sizes, tuple(events), model, ranging).read(words, text)


def _event(lines: _Lines, words: list[str]) -> Event:
    count, value = lines.count, lines.number
    match words:
        case ["phase", phase]:
            return Phase(count(phase))
        case ["major", major, "full" | "single" as mode, first, *places]:
            return Major(count(major), mode, tuple(count(place) for place in (first, *places)))
        case ["drop", place]:
            return Drop(count(place))
        case ["flip", variable, to]:
            return Flip(variable, to)
        case ["pivot", pivot, place, leaving, to, entering, price]:
            return Pivot(count(pivot), count(place), leaving, to, entering, value(price))
        case ["none", place, variable]:
            return NoneEnters(count(place), variable)
        case ["rollback", major, spot, op, left, right]:
            return Rollback(count(major), spot, op, value(left), value(right))
    lines.fault()


@dataclass
class _Answer:
    """The part of a text behind its events."""

    lines: _Lines
    sizes: tuple[int, int, int]
    events: tuple[Event, ...]
    model: Model | None
    has_ranges: bool

    def read(self, words: list[str], text: str) -> Result:
        """The result of a text whose line `answer` has these words."""
        lines, objective = self.lines, ""
        problem: NotOptimal | None = None
        named: dict[str, list[Fraction]] = {}
        match words:
            case ["answer", "optimal"]:
                status = Status.OPTIMAL
                objective, named = self.optimal()
            case ["answer", "infeasible"]:
                status, problem = Status.INFEASIBLE, Infeasible()
                named = self.numbers(has_columns=False, count=1)
            case ["answer", "dual-infeasible"]:
                status, problem = Status.DUAL_INFEASIBLE, DualInfeasible()
                named = self.numbers(has_columns=True, count=1)
            case ["answer", "limit", count]:
                status, problem = Status.LIMIT, LimitReached(lines.count(count))
            case ["answer", "overflow", place, op, left, right]:
                status, problem = Status.OVERFLOW, Overflow(place, op, lines.number(left), lines.number(right))
            case _:
                lines.fault()
        basis = self.basis() if status in (Status.OPTIMAL, Status.LIMIT) else None
        columns, rows = self.table(named, basis) if status is Status.OPTIMAL and basis is not None else ((), ())
        single = {name: values[0] for name, values in named.items()}
        return Result(
            status=status,
            sense=self.sense,
            sizes=self.sizes,
            objective=self.objective(objective, columns) if objective else None,
            columns=columns,
            rows=rows,
            multipliers={name[2:]: it for name, it in single.items()} if status is Status.INFEASIBLE else {},
            direction=single if status is Status.DUAL_INFEASIBLE else {},
            basis=basis,
            events=self.events,
            problem=problem,
            text=text,
            model=self.model,
        )

    @property
    def sense(self) -> Sense:
        return self.model.sense if self.model is not None else "min"

    def optimal(self) -> tuple[str, dict[str, list[Fraction]]]:
        """The word behind `objective`, and the numbers by variable."""
        self.lines.due(self.lines.next(), "certificate", 3)
        words = self.lines.next()
        self.lines.due(words, "objective", 2)
        if words[1] != "wide":
            self.lines.number(words[1])
        return words[1], self.numbers(has_columns=True, count=2, has_head=False)

    def objective(self, word: str, columns: tuple[Column, ...]) -> Fraction | None:
        """The objective that is told, or the sum where it is `wide` and the model is there."""
        if word != "wide":
            return number(word)
        return self.model.objective([column.value for column in columns]) if self.model is not None else None

    def numbers(self, *, has_columns: bool, count: int, has_head: bool = True) -> dict[str, list[Fraction]]:
        """The numbers of a certificate by variable, up to its line `end`."""
        rows, columns, _ = self.sizes
        named: dict[str, list[Fraction]] = {}
        if has_head:
            self.lines.due(self.lines.next(), "certificate", 3)
        for letter in ["x"] * columns * has_columns + ["r"] * rows:
            words = self.lines.next()
            self.lines.due(words, letter, 2 + count)
            name = f"{letter}:{words[1]}"
            if name in named:
                self.lines.fault()
            named[name] = [self.lines.number(word) for word in words[2:]]
        self.lines.due(self.lines.next(), "end", 1)
        if self.model is not None:
            due = [f"x:{name}" for name in self.model.columns] if has_columns else []
            if list(named) != due + [f"r:{name}" for name in self.model.rows]:
                raise OtherModel
        return named

    def basis(self) -> Basis:
        words = self.lines.next()
        self.lines.due(words, "basis", 3)
        columns, rows = (word.strip("-") for word in words[1:])
        if (len(rows), len(columns)) != self.sizes[:2] or set(columns + rows) - LETTERS.keys():
            self.lines.fault()
        return Basis(columns, rows)

    def table(self, named: dict[str, list[Fraction]], basis: Basis) -> tuple[tuple[Column, ...], tuple[Row, ...]]:
        """The columns and rows of an optimal answer."""
        sign = 1 if self.sense == "min" else -1
        columns, rows = [], []
        for letter, (variable, (value, price)) in zip(basis.columns + basis.rows, named.items(), strict=True):
            name, stand = variable[2:], LETTERS[letter]
            if variable.startswith("x:"):
                columns.append(Column(name, value, price, sign * price, stand))
            else:
                rows.append(Row(name, value, price, sign * price, stand))
        if self.has_ranges or self.lines.goes_on("range"):
            return self.ranged(columns, rows)
        return tuple(columns), tuple(rows)

    def ranged(self, columns: list[Column], rows: list[Row]) -> tuple[tuple[Column, ...], tuple[Row, ...]]:
        """The same with the ranges of all costs, and of the bounds of what stands at one."""
        costs = [self.range("cost", column.name) for column in columns]
        bounds = [self.bound(f"x:{column.name}", column.stand) for column in columns]
        return (
            tuple(
                replace(column, cost_range=cost, bound_range=bound)
                for column, cost, bound in zip(columns, costs, bounds, strict=True)
            ),
            tuple(replace(row, bound_range=self.bound(f"r:{row.name}", row.stand)) for row in rows),
        )

    def bound(self, variable: str, stand: Letter) -> Range | None:
        return self.range("bound", variable) if stand in ("L", "U") else None

    def range(self, kind: str, name: str) -> Range:
        """The range of the next line, which is due to be that of this cost or bound."""
        words = self.lines.next()
        if words[:3] != ["range", kind, name] or len(words) != 5:
            self.lines.fault()
        return Range(self.lines.end(words[3], "-inf"), self.lines.end(words[4], "inf"))
