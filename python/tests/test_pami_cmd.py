"""The solver class for PuLP: PuLP's own tests, and what they don't ask."""

from __future__ import annotations

import io
import unittest
from fractions import Fraction
from pathlib import Path
from typing import Any

import pami
import pytest

pulp = pytest.importorskip("pulp", reason="PuLP is missing (Debian package python3-pulp)")

from pami.pulp import PAMI_CMD, IntegerColumns, register  # noqa: E402

# The tests of PuLP 2.6.0 whose models have whole columns.
WHOLE = {
    "test_export_dict_MIP",
    "test_pulp_020",
    "test_pulp_021",
    "test_pulp_022",
    "test_pulp_023",
    "test_pulp_040",
    "test_pulp_060",
    "test_pulp_061",
}


@pytest.fixture
def pami_program(program: str, monkeypatch: pytest.MonkeyPatch) -> str:
    """The program as PAMI of the environment, where the class looks for it."""
    monkeypatch.setenv("PAMI", program)
    return program


def test_tests_of_pulp(pami_program: str, tmp_path: Path, monkeypatch: pytest.MonkeyPatch) -> None:
    """Each test of a continuous model passes, and all others end with the error that says that columns are whole."""
    tests = pytest.importorskip("pulp.tests.test_pulp", reason="PuLP comes without its tests")
    if not pulp.constants.VERSION.startswith("2.6"):
        pytest.skip("the list of tests with whole columns is that of PuLP 2.6.0")
    monkeypatch.chdir(tmp_path)
    register()
    case = type("PamiTest", (tests.BaseSolverTest.PuLPTest,), {"solveInst": PAMI_CMD})
    suite = unittest.defaultTestLoader.loadTestsFromTestCase(case)
    result = unittest.TextTestRunner(stream=io.StringIO(), buffer=True).run(suite)
    assert not result.failures
    assert not result.skipped
    assert {str(test).split()[0] for test, why in result.errors if "IntegerColumns: whole columns" in why} == WHOLE
    assert len(result.errors) == len(WHOLE)
    assert result.testsRun - len(WHOLE) > 40


def test_duals(pami_program: str) -> None:
    """The model and the numbers of a test that PuLP runs for a few solvers alone."""
    problem = pulp.LpProblem("duals", pulp.LpMinimize)
    x, y, z = pulp.LpVariable("x", 0, 5), pulp.LpVariable("y", -1, 1), pulp.LpVariable("z", 0)
    problem += x + 4 * y + 9 * z
    problem += x + y <= 5, "c1"
    problem += x + z >= 10, "c2"
    problem += -y + z == 7, "c3"
    assert problem.solve(PAMI_CMD(msg=False)) == pulp.LpStatusOptimal
    assert (x.varValue, y.varValue, z.varValue) == (4, -1, 6)
    assert (x.dj, y.dj, z.dj) == (0, 12, 0)
    rows = [problem.constraints[name] for name in ("c1", "c2", "c3")]
    assert [row.pi for row in rows] == [0, 1, 8]
    assert [row.slack for row in rows] == [2, 0, 0]


def test_fractions(pami_program: str) -> None:
    """x is better for the row, so it is at its bound 2/3, and y takes what is left of 5/3, which is 13/18. A unit of
    the row brings 1/7 / 2, and one more x brings 1/3 less a third of that.
    """
    third = Fraction(1, 3)
    problem = pulp.LpProblem("fractions", pulp.LpMaximize)
    x, y = pulp.LpVariable("x", 0, 2 * third), pulp.LpVariable("y", 0)
    problem += third * x + Fraction(1, 7) * y + third
    problem += third * x + 2 * y <= 5 * third, "row"
    solver = PAMI_CMD(msg=False, exact=True)
    assert problem.solve(solver) == pulp.LpStatusOptimal
    assert (x.varValue, y.varValue) == (2 * third, Fraction(13, 18))
    assert (x.dj, y.dj) == (Fraction(13, 42), 0)
    assert (problem.constraints["row"].pi, problem.constraints["row"].slack) == (Fraction(1, 14), 0)
    assert solver.result is not None
    assert solver.result.is_optimal


def test_shortest_decimals_and_constant(pami_program: str) -> None:
    """0.1 is 1/10, and the constant is kept: 1/10 + 1/5."""
    problem = pulp.LpProblem("decimals", pulp.LpMinimize)
    x = pulp.LpVariable("x", 0.1, 1e30)
    problem += x + 0.2
    solver = PAMI_CMD(msg=False, exact=True)
    problem.solve(solver)
    assert x.varValue == Fraction(1, 10)
    assert solver.result is not None
    assert solver.result.objective == Fraction(3, 10)


@pytest.mark.parametrize(
    ("low", "high", "side", "due"),
    [(None, None, 1, "Unbounded"), (None, None, 3, "Infeasible"), (3, 1, 1, "Infeasible"), (0, 4, 1, "Optimal")],
)
def test_statuses(pami_program: str, low: Any, high: Any, side: int, due: str) -> None:
    """The largest x, beside another column that is at most 2. A dual infeasible model is unbounded only where it has a
    plan.
    """
    problem = pulp.LpProblem("status", pulp.LpMaximize)
    x, other = pulp.LpVariable("x", low, high), pulp.LpVariable("other", 0, 2)
    problem += x
    problem += other >= side
    assert pulp.LpStatus[problem.solve(PAMI_CMD(msg=False))] == due
    assert x.varValue == (high if due == "Optimal" else None)


def test_limit(pami_program: str) -> None:
    problem = pulp.LpProblem("limit", pulp.LpMinimize)
    x = pulp.LpVariable("x", 0)
    problem += x
    problem += x >= 1
    assert problem.solve(PAMI_CMD(msg=False, limit=0)) == pulp.LpStatusNotSolved


def test_whole_columns(pami_program: str) -> None:
    problem = pulp.LpProblem("whole", pulp.LpMinimize)
    x = pulp.LpVariable("x", 0, cat=pulp.LpInteger)
    problem += x
    problem += 2 * x >= 3
    with pytest.raises(IntegerColumns, match="mip=False"):
        problem.solve(PAMI_CMD(msg=False))
    assert problem.solve(PAMI_CMD(msg=False, mip=False)) == pulp.LpStatusOptimal
    assert x.varValue == 1.5


def test_kept_files(pami_program: str, tmp_path: Path, monkeypatch: pytest.MonkeyPatch) -> None:
    monkeypatch.chdir(tmp_path)
    problem = pulp.LpProblem("kept", pulp.LpMaximize)
    x = pulp.LpVariable("end", 0, 4)
    problem += x
    problem.solve(PAMI_CMD(msg=False, keepFiles=True))
    assert pami.solve(tmp_path / "kept-pulp.lp", program=pami_program).objective == 4
    assert "objective 4\n" in (tmp_path / "kept-pulp.txt").read_text()


def test_no_program(monkeypatch: pytest.MonkeyPatch, tmp_path: Path) -> None:
    monkeypatch.setenv("PAMI", str(tmp_path / "nothing"))
    assert not PAMI_CMD().available()
