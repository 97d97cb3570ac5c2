"""`python -m pami`."""

from __future__ import annotations

import json
from pathlib import Path

import pytest
from pami import solve
from pami.__main__ import main


def test_show(program: str, examples: Path, tmp_path: Path, capsys: pytest.CaptureFixture[str]) -> None:
    assert main(["show", str(examples / "blend.mps"), "--program", program, "--digits", "2"]) == 0
    lines = [line.split() for line in capsys.readouterr().out.splitlines()]
    assert ["naphtha", "10.8", "54/5", "0", "B"] in lines
    assert ["volume", "100", "~-150.67", "-452/3", "U"] in lines
    # The text of a maximum, with and without its model.
    text = tmp_path / "joinery.txt"
    text.write_text(solve(examples / "joinery.mps", program=program).text)
    assert main(["show", str(text)]) == 0
    assert "as minimised" in capsys.readouterr().out
    assert main(["show", str(text), "--model", str(examples / "joinery.mps")]) == 0
    assert ["saw", "140", "100", "U"] in [line.split() for line in capsys.readouterr().out.splitlines()]


@pytest.mark.parametrize(
    ("name", "due"),
    [
        ("bakery.mps", "r:cake >= 10, times 3/2"),
        ("exchange.lp", "x:euros_sold    ~0.909091  10/11"),
        ("wide.mps", "Numbers with fewer digits help"),
    ],
)
def test_show_others(program: str, examples: Path, capsys: pytest.CaptureFixture[str], name: str, due: str) -> None:
    assert main(["show", str(examples / name), "--program", program]) == 0
    assert due in capsys.readouterr().out


def test_show_ranges(ranger: str, examples: Path, capsys: pytest.CaptureFixture[str]) -> None:
    assert main(["show", str(examples / "diet.mps"), "--program", ranger, "--ranging", "--digits", "1"]) == 0
    lines = [line.split() for line in capsys.readouterr().out.splitlines()]
    assert ["bread", "~23.3", "70/3", "~28.3", "85/3"] in lines
    assert ["r:protein", "10", "~9.8", "108/11", "~11.3", "45/4"] in lines


def test_json(program: str, examples: Path, capsys: pytest.CaptureFixture[str]) -> None:
    assert main(["json", str(examples / "diet.mps"), "--program", program, "--limit", "2"]) == 0
    assert json.loads(capsys.readouterr().out)["status"] == "limit"


def test_verify(examples: Path, capsys: pytest.CaptureFixture[str]) -> None:
    assert main(["verify", str(examples / "diet.mps"), str(examples / "dear_diet.txt")]) == 20
    assert capsys.readouterr().out == "invalid sign x:lentils\n"
    assert main(["verify", str(examples / "diet.mps"), str(examples / "diet.mps")]) == 22


def test_error(capsys: pytest.CaptureFixture[str]) -> None:
    assert main(["show", "nothing.mps"]) == 1
    assert capsys.readouterr().err.startswith("pami: nothing.mps can't be read")
