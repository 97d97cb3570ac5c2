"""`solve`, `check` and what a result holds. The expected numbers are those that docs/FORMATS.md works out by hand."""

from __future__ import annotations

import json
from fractions import Fraction
from pathlib import Path

import pami
import pytest
from pami.verify import verify

DIET = {"bread": "21/4", "milk": "3/2", "lentils": "5/4", "cheese": "0", "vegetables": "3/2"}


def test_optimal(program: str, examples: Path) -> None:
    result = pami.solve(examples / "diet.mps", program=program).optimal()
    assert result.status == "optimal"
    assert result.objective == Fraction(455, 2)
    assert {column.name: str(column.value) for column in result.columns} == DIET
    assert result["bread"] == Fraction(21, 4)
    assert result.basis == pami.Basis("BBBLB", "LLBLU")
    cheese = result.columns[3]
    assert (cheese.reduced_cost, cheese.own_reduced_cost, cheese.stand) == (20, 20, "L")
    fat = result.rows[4]
    assert (fat.name, fat.value, fat.dual, fat.own_dual, fat.stand) == ("fat", 6, -10, -10, "U")
    assert result.pivots == 4
    assert result.events[:2] == (pami.Phase(2), pami.Major(1, "full", (0, 1, 2, 3)))
    assert result.events[3:5] == (pami.Drop(1), pami.Drop(2))
    assert result.events[2] == pami.Pivot(1, 0, "r:energy", "L", "x:bread", Fraction(10))
    assert result.decimals(1)["milk"] == "1.5"
    assert pami.check(examples / "diet.mps", result, program=program).is_valid
    assert verify(examples / "diet.mps", result).is_valid


def test_maximum(program: str, examples: Path) -> None:
    """A maximum's prices in the sense of the file: another table would bring 35, a board of the contract costs 5."""
    result = pami.solve(examples / "joinery.mps", program=program)
    assert (result.sense, result.objective) == ("max", 9680)
    tables, boards = result.columns[1], result.rows[1]
    assert (tables.reduced_cost, tables.own_reduced_cost) == (-35, 35)
    assert (boards.dual, boards.own_dual) == (5, -5)
    assert pami.Flip("x:maize", "U") in pami.solve(examples / "farm.lp", program=program).events


def test_infeasible(program: str, examples: Path) -> None:
    result = pami.solve(examples / "bakery.mps", program=program)
    assert result.status is pami.Status.INFEASIBLE
    assert result.multipliers["cake"] == Fraction(3, 2)
    why = result.explain_infeasible()
    assert (why.due, why.reached) == (19, 0)
    assert [str(row) for row in why.rows] == [
        "r:bread >= 60",
        "r:rolls >= 80",
        "r:cake >= 10",
        "r:oven <= 40",
        "r:extra <= 6",
    ]
    assert why.columns == ()
    with pytest.raises(pami.Infeasible):
        result.optimal()
    assert verify(examples / "bakery.mps", result).is_valid


def test_infeasible_by_bounds(program: str) -> None:
    """x is at most 2 and y at most 3, so 2 x + y is at most 7, and 9 are due."""
    result = pami.solve("Minimize\n x\nst\n sum: 2 x + y >= 9\nBounds\n x <= 2\n y <= 3\nEnd\n", program=program)
    why = result.explain_infeasible()
    factor = result.multipliers["sum"]
    assert (why.due / factor, why.reached / factor) == (9, 7)
    assert [(it.variable, it.bound, -it.factor / factor) for it in why.columns] == [("x:x", 2, 2), ("x:y", 3, 1)]


def test_dual_infeasible(program: str, examples: Path) -> None:
    result = pami.solve(examples / "exchange.lp", program=program)
    assert result.direction["x:euros_sold"] == Fraction(10, 11)
    assert result.direction["r:pounds"] == 0
    with pytest.raises(pami.DualInfeasible):
        result.optimal()
    with pytest.raises(ValueError, match="nothing infeasible"):
        result.explain_infeasible()
    assert verify(examples / "exchange.lp", result).is_valid


def test_limit_and_overflow(program: str, examples: Path) -> None:
    stopped = pami.solve(examples / "diet.mps", limit=2, program=program)
    assert (stopped.status, stopped.basis) == ("limit", pami.Basis("BLLLB", "LBBLB"))
    with pytest.raises(pami.LimitReached, match="limit of 2 pivots"):
        stopped.optimal()
    wide = pami.solve(examples / "wide.mps", program=program)
    with pytest.raises(pami.Overflow) as caught:
        wide.optimal()
    assert (caught.value.place, caught.value.op, caught.value.right) == ("factor", "div", 10)
    assert isinstance(wide.events[-1], pami.Rollback)


def test_options(program: str, examples: Path) -> None:
    """One row a major: another log, and the same plan."""
    result = pami.solve(examples / "diet.mps", batch=1, refactor=0, program=program).optimal()
    majors = [event.places for event in result.events if isinstance(event, pami.Major)]
    assert majors == [(0,), (3,), (1,), (4,)]
    assert result.objective == Fraction(455, 2)
    for batch, refactor in ((0, 0), (9, 0), (1, 65)):
        with pytest.raises(pami.BadWords, match="a batch is from 1 to 8"):
            pami.solve(examples / "diet.mps", program=program, batch=batch, refactor=refactor)


def test_wide_objective(program: str) -> None:
    """2^126 and 2^126 fit, as does their sum less 1, but not the sum of the products on the way: three times 2^126."""
    power = 2**126
    lines = [f"NAME\nROWS\n N cost\n G r1\n G r2\nCOLUMNS\n x cost {power}\n x r1 1\n y cost {power}\n y r2 1\n"]
    lines.append("RHS\n set r1 1 r2 2\nENDATA\n")
    result = pami.solve("".join(lines), program=program)
    assert "objective wide\n" in result.text
    assert result.objective == 3 * power
    assert pami.read_result(result.text).objective is None
    assert verify("".join(lines), result).is_valid


def test_text_and_json(program: str) -> None:
    result = pami.solve("Maximize\n 3 x + 1\nst\n c: 4 x <= 7\nEnd\n", program=program)
    told = json.loads(result.to_json())
    assert told["objective"] == "25/4"
    assert told["columns"][0] == {
        "name": "x",
        "value": "7/4",
        "reduced_cost": "0",
        "own_reduced_cost": "0",
        "stand": "B",
        "cost_range": None,
        "bound_range": None,
    }
    assert told["rows"][0]["own_dual"] == "3/4"
    assert {"event": "Phase", "number": 1} in told["events"]
    assert told["problem"] is None


def test_check(program: str, examples: Path) -> None:
    verdict = pami.check(examples / "diet.mps", examples / "dear_diet.txt", program=program)
    assert (verdict.kind, verdict.condition, verdict.variable) == ("invalid", "sign", "x:lentils")
    assert str(verdict) == "invalid sign x:lentils"
    assert verdict == verify(examples / "diet.mps", examples / "dear_diet.txt")
    malformed = pami.check(examples / "diet.mps", "certificate 1 optimal\nobjective 1\nx loaf 1 0\n", program=program)
    assert (malformed.kind, malformed.line, malformed.fault) == ("malformed", 3, "name")


@pytest.mark.parametrize(
    ("value", "digits", "due"),
    [
        ("1/4", 6, "0.25"),
        ("1/3", 6, "~0.333333"),
        ("-2/3", 2, "~-0.67"),
        ("7", 3, "7"),
        ("-120", 0, "-120"),
        ("5/2", 0, "~3"),
        ("-1/1000", 2, "~0"),
        ("99999/100000", 3, "~1"),
        ("-1/8", 3, "-0.125"),
    ],
)
def test_decimal(value: str, digits: int, due: str) -> None:
    assert pami.decimal(Fraction(value), digits) == due
