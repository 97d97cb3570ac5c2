"""Another solver's answers as certificates. Skipped where there is no `esolver`."""

from __future__ import annotations

import collections
import random
import shutil
from fractions import Fraction
from pathlib import Path

import pami
import pytest
from pami.__main__ import main
from pami.certify import certificate_by, certify, read_solution
from pami.verify import verify
from test_verify import drawn_lp

SEED = 5
needs_esolver = pytest.mark.skipif(shutil.which("esolver") is None, reason="no esolver (Debian package qsopt-ex)")


@needs_esolver
@pytest.mark.parametrize(
    ("name", "claim"),
    [
        ("diet.mps", "optimal"),
        ("joinery.mps", "optimal"),
        ("farm.lp", "optimal"),
        ("bakery.mps", "infeasible"),
        ("exchange.lp", "dual-infeasible"),
    ],
)
def test_examples(program: str, examples: Path, name: str, claim: str) -> None:
    found = certify(examples / name, program=program)
    assert (found.claim, str(found.verdict)) == (claim, "valid")


@needs_esolver
def test_path_that_does_not_fit(program: str) -> None:
    """pami divides 10^-38 by 10 on its way, but the answer has room: x is 10 and w is 1 - 10^-37; a unit of the first
    row costs 1/10, of the second one 1, and the objective is 11.
    """
    model = f"Minimize\n 1.{'0' * 37}1 x + 100 y + w\nst\n first: 10 x + y >= 100\n second: 1e-38 x + w >= 1\nEnd\n"
    assert pami.solve(model, program=program).status is pami.Status.OVERFLOW
    found = certify(model, program=program)
    assert (found.claim, str(found.verdict)) == ("optimal", "valid")
    assert "objective 11\n" in found.text


@needs_esolver
def test_drawn(program: str) -> None:
    """Both solvers claim the same of each model that both answer, and each certificate of the other one holds."""
    claims: collections.Counter[str] = collections.Counter()
    for number in range(60):
        text = drawn_lp(random.Random(f"certify {SEED} {number}"))
        model = pami.read_model(text)
        claim, certificate = certificate_by(model)
        assert str(verify(model, certificate)) == "valid", f"{text}\n{certificate}"
        assert str(pami.check(text, certificate, format="lp", program=program)) == "valid"
        own = pami.solve(text, format="lp", program=program).status
        # A model may be infeasible and dual infeasible.
        assert own.value == claim or {own.value, claim} == {"infeasible", "dual-infeasible"}
        claims[claim] += 1
    assert all(claims[claim] for claim in ("optimal", "infeasible", "dual-infeasible"))


@needs_esolver
def test_command(program: str, examples: Path, tmp_path: Path, capsys: pytest.CaptureFixture[str]) -> None:
    out = tmp_path / "certificate.txt"
    words = ["certify", str(examples / "diet.mps"), "--with", "esolver", "-o", str(out), "--program", program]
    assert main(words) == 0
    assert capsys.readouterr().out == "esolver: optimal\nvalid\n"
    assert pami.check(examples / "diet.mps", out, program=program).is_valid


def test_read_solution() -> None:
    text = "status = OPTIMAL\nstatus OPTIMAL\n\tValue = 9680\nVARS:\nx0 = 60\nx1 = -1/3\n"
    solution = read_solution(text + "REDUCED COST:\nx1 = 35\nPI:\nc0 = 100\nSLACK:\n")
    assert solution.end == "OPTIMAL"
    assert solution.values == {"x0": Fraction(60), "x1": Fraction(-1, 3)}
    assert solution.duals == {"c0": Fraction(100)}


def test_no_solver(examples: Path) -> None:
    with pytest.raises(pami.ProgramMissing, match="qsopt-ex"):
        certify(examples / "diet.mps", solver="no-such-solver")
