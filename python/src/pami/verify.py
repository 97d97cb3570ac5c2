"""A second checker of certificates, in plain Python with unbounded fractions.

It shares no code with the program, reads the model by its own readers, and leaves nothing unchecked: what `pami check`
answers with `unchecked` is settled here. Nothing in it is proved; it is short, so that it can be read.
"""

from __future__ import annotations

from collections.abc import Iterator
from dataclasses import dataclass
from fractions import Fraction

from .answer import Result, number
from .model import Format, Model
from .source import Source, read_model, read_text
from .verdict import Verdict

# A text with more bytes is too long for the program.
BYTES = 16_777_216
# The claims, whether columns have lines, and how many numbers stand in a line.
CLAIMS = {"optimal": (True, 2), "infeasible": (False, 1), "dual-infeasible": (True, 1)}


@dataclass(frozen=True)
class Certificate:
    """The numbers of a certificate by the order of the model. `columns` and `rows` are values, multipliers or the
    direction; the prices are those of an optimal one alone. `objective` is None where no objective is told.
    """

    claim: str
    objective: Fraction | None
    columns: list[Fraction]
    rows: list[Fraction]
    reduced_costs: list[Fraction]
    duals: list[Fraction]


def verify(
    model: Source | Model, certificate: Source | Result, *, format: Format | None = None, bits: int | None = None
) -> Verdict:
    """Judges a certificate of a model: valid, invalid by the first condition that fails, or malformed by the first
    fault of its text.

    With `bits` a number of the text with more binary digits is a fault, as for the program with 127; without, any
    number is taken.
    """
    read = model if isinstance(model, Model) else read_model(model, format)
    text = certificate.text if isinstance(certificate, Result) else read_text(certificate)
    found = read_certificate(read, text, bits)
    if isinstance(found, Verdict):
        return found
    tests = {"optimal": _optimal, "infeasible": _infeasible, "dual-infeasible": _dual_infeasible}[found.claim]
    for condition, variable, holds in tests(read, found):
        if not holds:
            return Verdict("invalid", condition, variable)
    return Verdict("valid")


# ---- what each certificate has to keep, as (condition, variable, whether it holds), in the order of the tests

Test = tuple[str, str, bool]


def _optimal(model: Model, it: Certificate) -> Iterator[Test]:
    for name, value, low, high in zip(model.columns, it.columns, model.low, model.high, strict=True):
        yield "bound", f"x:{name}", _is_within(low, value, high)
    sums = model.row_values(it.columns)
    for name, value, due, low, high in zip(model.rows, it.rows, sums, model.row_low, model.row_high, strict=True):
        yield "row", f"r:{name}", value == due
        yield "bound", f"r:{name}", _is_within(low, value, high)
    for name, told, cost, entries in zip(
        model.columns, it.reduced_costs, model.minimised_costs(), model.entries, strict=True
    ):
        yield "reduced", f"x:{name}", told == cost - _priced(entries, it.duals)
    for name, value, price, low, high in zip(
        model.columns, it.columns, it.reduced_costs, model.low, model.high, strict=True
    ):
        yield "sign", f"x:{name}", _fits_sign(low, value, high, price)
    for name, value, price, low, high in zip(model.rows, it.rows, it.duals, model.row_low, model.row_high, strict=True):
        yield "sign", f"r:{name}", _fits_sign(low, value, high, price)
    yield "objective", "-", it.objective is None or it.objective == model.objective(it.columns)


def _infeasible(model: Model, it: Certificate) -> Iterator[Test]:
    total = Fraction(0)
    factors = [-_priced(entries, it.rows) for entries in model.entries]
    rows = zip("r" * len(model.rows), model.rows, it.rows, model.row_low, model.row_high, strict=True)
    columns = zip("x" * len(model.columns), model.columns, factors, model.low, model.high, strict=True)
    for letter, name, factor, low, high in [*rows, *columns]:
        bound = low if factor > 0 else high
        yield "finite", f"{letter}:{name}", not factor or bound is not None
        if factor and bound is not None:
            total += factor * bound
    yield "positive", "-", total > 0


def _dual_infeasible(model: Model, it: Certificate) -> Iterator[Test]:
    for name, change, low, high in zip(model.columns, it.columns, model.low, model.high, strict=True):
        yield "bound", f"x:{name}", _is_free(low, change, high)
    sums = model.row_values(it.columns)
    for name, change, due, low, high in zip(model.rows, it.rows, sums, model.row_low, model.row_high, strict=True):
        yield "row", f"r:{name}", change == due
        yield "bound", f"r:{name}", _is_free(low, change, high)
    costs = zip(model.minimised_costs(), it.columns, strict=True)
    yield "cost", "-", sum((cost * change for cost, change in costs), Fraction(0)) < 0


def _is_within(low: Fraction | None, value: Fraction, high: Fraction | None) -> bool:
    return (low is None or low <= value) and (high is None or value <= high)


def _fits_sign(low: Fraction | None, value: Fraction, high: Fraction | None, price: Fraction) -> bool:
    """A price above 0 stands at the lower bound alone, one below 0 at the upper bound."""
    return price == 0 or value == (low if price > 0 else high)


def _is_free(low: Fraction | None, change: Fraction, high: Fraction | None) -> bool:
    """Whether no bound is ever passed in this direction."""
    return (low is None or change >= 0) and (high is None or change <= 0)


def _priced(entries: dict[int, Fraction], duals: list[Fraction]) -> Fraction:
    return sum((entry * duals[row] for row, entry in entries.items()), Fraction(0))


# ---- the text of a certificate


def read_certificate(model: Model, text: str, bits: int | None = None) -> Certificate | Verdict:
    """The certificate that a text has for a model, or its first fault."""
    lines = text.split("\n")
    if not lines[-1]:
        lines.pop()
    if len(text.encode("utf-8", "surrogateescape")) > BYTES:
        return Verdict("malformed", line=0, fault="too-long")
    at = next((at for at, line in enumerate(lines) if line.startswith("certificate 1 ")), None)
    if at is None:
        return Verdict("malformed", line=len(lines) + 1, fault="none")
    head = _words(lines[at])
    if len(head) != 3 or head[2] not in CLAIMS:
        return Verdict("malformed", line=at + 1, fault="word")
    has_columns, count = CLAIMS[head[2]]
    due: list[tuple[str, str | None, int]] = [("objective", None, 1)] if head[2] == "optimal" else []
    due += [("x", name, count) for name in model.columns] if has_columns else []
    due += [("r", name, count) for name in model.rows]
    numbers: list[list[Fraction | None]] = []
    for line, (first, name, many) in enumerate(due, at + 2):
        if line > len(lines):
            return Verdict("malformed", line=line, fault="end-missing")
        found = _line(_words(lines[line - 1]), first, name, many, bits)
        if isinstance(found, str):
            return Verdict("malformed", line=line, fault=found)
        numbers.append(found)
    end = at + 2 + len(due)
    if end > len(lines):
        return Verdict("malformed", line=end, fault="end-missing")
    if _words(lines[end - 1]) != ["end"]:
        return Verdict("malformed", line=end, fault="word")
    return _certificate(head[2], numbers, len(model.columns) if has_columns else 0)


def _words(line: str) -> list[str]:
    return line.removesuffix("\r").split(" ")


def _line(words: list[str], first: str, name: str | None, many: int, bits: int | None) -> list[Fraction | None] | str:
    """The numbers of a line, None for the word `wide` of an objective; or the fault of the line."""
    names = [] if name is None else [name]
    if len(words) != 1 + len(names) + many or words[0] != first:
        return "word"
    if words[1:-many] != names:
        return "name"
    if first == "objective" and words[-1] == "wide":
        return [None]
    found = [number(word) for word in words[-many:]]
    if any(it is None or (bits is not None and not fits(it, bits)) for it in found):
        return "number"
    return found


def fits(value: Fraction, bits: int) -> bool:
    """Whether numerator and denominator have so many binary digits at most."""
    return max(abs(value.numerator), value.denominator).bit_length() <= bits


def _certificate(claim: str, numbers: list[list[Fraction | None]], columns: int) -> Certificate:
    objective = numbers.pop(0)[0] if claim == "optimal" else None
    first = [it[0] or Fraction(0) for it in numbers]
    prices = [it[1] or Fraction(0) for it in numbers] if claim == "optimal" else []
    return Certificate(claim, objective, first[:columns], first[columns:], prices[:columns], prices[columns:])
