"""A result as a table for people."""

from __future__ import annotations

from collections.abc import Sequence
from fractions import Fraction

from .answer import Result, Status
from .decimals import decimal
from .ranges import Range

RANGES = (
    "The same variables stay in the basis, and so the plan or its prices, as long as one of these numbers alone is "
    "moved within its range; see docs/RANGING.md."
)
LETTERS = "B: in the basis, L and U: at the lower or upper bound, Z: without bounds."
SENSES = {"min": "as minimised", "max": "in the sense of the file, a maximum"}


def table(result: Result, digits: int = 6) -> str:
    """The status, and each column and row with its numbers as decimals and as fractions. A decimal that was rounded has
    a `~` in front; a fraction stands where its decimal isn't all. Prices are in the sense of the file.
    """
    parts = [_head(result, digits)]
    if result.is_optimal:
        columns = [(it.name, it.value, it.own_reduced_cost, it.stand) for it in result.columns]
        rows = [(it.name, it.value, it.own_dual, it.stand) for it in result.rows]
        for kind, price, lines in (("column", "reduced cost", columns), ("row", "dual", rows)):
            told = [(name, *both(value, digits), *both(cost, digits), stand) for name, value, cost, stand in lines]
            parts.append(_columns([(kind, "value", "", price, "", "stands"), *told]))
        parts.append(f"Prices are {SENSES[result.sense]}. {LETTERS}")
        if result.cost_ranges or result.bound_ranges:
            parts += [*_ranges(result, digits), RANGES]
    elif result.status is Status.INFEASIBLE and result.model is not None:
        parts.append(str(result.explain_infeasible()))
    elif result.direction or result.multipliers:
        head = ("direction", "change", "") if result.direction else ("row", "multiplier", "")
        numbers = {**result.direction, **result.multipliers}
        parts.append(_columns([head, *((name, *both(it, digits)) for name, it in numbers.items() if it)]))
    return "\n\n".join(parts)


def _ranges(result: Result, digits: int) -> list[str]:
    """The ranges of the costs, and of the bounds at which columns and rows stand."""
    variables = result.variables
    costs: list[tuple[str, ...]] = [(name, *ends(it, digits)) for name, it in result.cost_ranges.items()]
    bounds: list[tuple[str, ...]] = []
    for name, it in result.bound_ranges.items():
        bounds.append((name, *both(variables[name].value, digits), *ends(it, digits)))
    heads = ("cost of column", "from", "", "to", ""), ("bound of", "now", "", "from", "", "to", "")
    return [_columns([head, *lines]) for head, lines in zip(heads, (costs, bounds), strict=True) if lines]


def ends(told: Range, digits: int) -> tuple[str, str, str, str]:
    """Each end as a decimal and, where it isn't whole, as a fraction."""
    shown: list[str] = []
    for end, word in zip((told.low, told.high), told.ends(), strict=True):
        shown += both(end, digits) if isinstance(end, Fraction) else (word, "")
    return (shown[0], shown[1], shown[2], shown[3])


def _head(result: Result, digits: int) -> str:
    rows, columns, entries = result.sizes
    sizes = f"{rows} rows, {columns} columns, {entries} entries; {result.pivots} pivots"
    if result.problem is not None:
        return f"{result.status}: {result.problem}\n{sizes}"
    if result.objective is None:
        return (
            f"{result.status}; the objective is too wide for the text, and is summed where the model is given\n{sizes}"
        )
    shown, exact = both(result.objective, digits)
    return f"{result.status}: {' = '.join(word for word in (shown, exact) if word)}\n{sizes}"


def both(value: Fraction, digits: int) -> tuple[str, str]:
    """The decimal, and the fraction where the decimal isn't a whole number."""
    return decimal(value, digits), "" if value.denominator == 1 else str(value)


def _columns(lines: Sequence[tuple[str, ...]]) -> str:
    """Lines with their words under one another: names to the left, all else to the right."""
    widths = [max(map(len, words)) for words in zip(*lines, strict=True)]
    shown = []
    for name, *words in lines:
        right = [word.rjust(width) for word, width in zip(words, widths[1:], strict=True)]
        shown.append("  ".join([name.ljust(widths[0]), *right]).rstrip())
    return "\n".join(shown)
