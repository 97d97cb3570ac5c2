"""Ranges of costs and bounds, and the summary of `trial`. docs/RANGING.md works the diet's ranges out by hand."""

from __future__ import annotations

import json
import re
import shutil
import subprocess
import sys
from fractions import Fraction
from pathlib import Path

import pami
import pytest
from conftest import TOP
from test_pages import Words
from test_replay import DIET

LINES = """range cost bread 70/3 85/3
range cost milk 55/3 145/7
range cost lentils 65/2 45
range cost cheese 25 inf
range cost vegetables 10 inf
range bound x:cheese -5/16 2/29
range bound r:energy 139/8 127/7
range bound r:protein 108/11 45/4
range bound r:vitamin_c 2 16
range bound r:fat 148/25 101/16
"""
# Of c1: x + y - z + 1e-38 w >= 2. How far w may go up is 2 times 10^38, which doesn't fit.
TINY = """pami 1
model 1 4 4
phase 2
major 1 full 0
pivot 1 0 r:c1 L x:x 0
answer optimal
certificate 1 optimal
objective 0
x x 2 0
x y 0 0
x z 0 0
x w 0 0
r c1 2 0
end
basis BLLL L
range cost x 0 0
range cost y 0 inf
range cost z 0 inf
range cost w 0 inf
range bound x:y -inf 2
range bound x:z -2 inf
range bound x:w -inf wide
range bound r:c1 0 inf
"""
TRIAL = "trial 7 20 30\nanswer optimal objective 6247\npivots 69 majors 22 flips 15 rollbacks 0\n"


def test_read() -> None:
    result = pami.read_result(DIET + LINES)
    assert list(result.cost_ranges) == ["bread", "milk", "lentils", "cheese", "vegetables"]
    assert result.cost_ranges["bread"] == pami.Range(Fraction(70, 3), Fraction(85, 3))
    assert result.cost_ranges["cheese"] == pami.Range(Fraction(25), None)
    assert list(result.bound_ranges) == ["x:cheese", "r:energy", "r:protein", "r:vitamin_c", "r:fat"]
    fat = result.rows[4]
    assert fat.bound_range == result.bound_ranges["r:fat"] == pami.Range(Fraction(148, 25), Fraction(101, 16))
    assert result.rows[2].bound_range is None
    assert result.variables["x:milk"] == result.columns[1]
    assert str(result.cost_ranges["vegetables"]) == "10 to inf"
    told = json.loads(result.to_json())
    assert told["columns"][0]["cost_range"] == ["70/3", "85/3"]
    assert (told["rows"][2]["bound_range"], told["rows"][3]["bound_range"]) == (None, ["2", "16"])


def test_text_without_ranges() -> None:
    result = pami.read_result(DIET)
    assert (result.cost_ranges, result.bound_ranges) == ({}, {})
    assert result.columns[0].cost_range is None
    with pytest.raises(pami.TextCut):
        pami.read_result(DIET, ranging=True)


def test_ends() -> None:
    """The ends belong to a range, and an end that isn't known says nothing of what lies past the others."""
    bread = pami.Range(Fraction(70, 3), Fraction(85, 3))
    assert bread.holds(Fraction(70, 3)) and bread.holds(Fraction(85, 3)) and bread.holds(25)
    assert bread.holds(23) is False and bread.holds(29) is False
    result = pami.read_result(TINY, ranging=True)
    unknown = result.bound_ranges["x:w"]
    assert unknown == pami.Range(None, "wide")
    assert unknown.holds(5) is None
    assert str(unknown) == "-inf to wide"
    assert pami.Range("wide", Fraction(3)).holds(4) is False
    assert pami.Range(None, None).holds(10**50)


def test_cut() -> None:
    """A text that ends in its ranges was cut, whether in a line or behind one."""
    for cut in range(1, len(LINES)):
        with pytest.raises(pami.TextCut):
            pami.read_result(DIET + LINES[:cut])


@pytest.mark.parametrize(
    ("old", "new"),
    [
        ("cost milk", "cost bread"),
        ("cost milk 55/3 145/7", "cost milk 55/3"),
        ("range bound x:cheese -5/16 2/29\n", ""),
        ("range bound r:protein", "range cost r:protein"),
        ("25 inf", "25 -inf"),
        ("25 inf", "inf inf"),
        ("2 16", "2.0 16"),
        ("2 16", "4/2 16"),
        ("2 16", "2 none"),
    ],
)
def test_faults(old: str, new: str) -> None:
    with pytest.raises((pami.TextFault, pami.TextCut)):
        pami.read_result(DIET + LINES.replace(old, new))


def test_page(examples: Path) -> None:
    pytest.importorskip("jinja2", reason="python3-jinja2 isn't installed")
    page = Words(pami.report(DIET + LINES, examples / "diet.mps"))
    assert page.open == []
    for told in (
        "How far this holds",
        "bread 25 ~23.333333 70/3 ~28.333333 85/3",
        "cheese 45 25 inf",
        "x:cheese lower 0 -0.3125 -5/16 ~0.068966 2/29",
        "r:fat upper 6 5.92 148/25 6.3125 101/16",
    ):
        assert told in str(page), str(page)
    assert "How far this holds" not in str(Words(pami.report(DIET, examples / "diet.mps")))


def test_solve(ranger: str, examples: Path) -> None:
    """The program's ranges of the diet, and of a maximum, whose costs are those of the file."""
    assert pami.solve(examples / "diet.mps", ranging=True, program=ranger) == pami.read_result(DIET + LINES)
    plain = pami.solve(examples / "diet.mps", program=ranger)
    assert plain.cost_ranges == {}
    farm = pami.solve(examples / "farm.lp", ranging=True, program=ranger)
    assert farm.sense == "max"
    told = [(str(column.cost_range), column.stand) for column in farm.columns]
    assert told == [("280 to 1300/3", "B"), ("490 to inf", "U"), ("240 to 420", "B")]
    assert str(farm.bound_ranges["r:hours"]) == "3910/9 to 4550/9"


def test_no_answer_no_ranges(ranger: str, examples: Path) -> None:
    """Ranges come with an optimal answer alone."""
    for name in ("bakery.mps", "exchange.lp", "wide.mps"):
        result = pami.solve(examples / name, ranging=True, program=ranger)
        assert (result.cost_ranges, result.bound_ranges) == ({}, {})


def test_a_moved_cost(ranger: str) -> None:
    """At the end of a cost's range the basis is still best, and a tenth past it no more. Times 30 costs are whole."""
    lunch = "Minimize\n {bread} bread + {milk} milk\nst\n 5 bread + 3 milk >= 30\n bread + 2 milk <= 12\nEnd\n"
    first = pami.solve(lunch.format(bread="25", milk="20"), ranging=True, program=ranger)
    high = first.cost_ranges["bread"].high
    assert isinstance(high, Fraction) and high.denominator in (1, 3)
    for more, stays in ((Fraction(0), True), (Fraction(1, 10), False)):
        told = lunch.format(bread=str(int((high + more) * 30)), milk="600")
        again = pami.solve(told, program=ranger)
        assert (again.basis == first.basis) == stays


def test_sweep(ranger: str, examples: Path) -> None:
    (scenario,) = pami.sweep([examples / "diet.mps"], ranging=True, program=ranger)
    assert scenario.result.bound_ranges["r:vitamin_c"] == pami.Range(Fraction(2), Fraction(16))


def _told_by_glpk(model: Path, folder: Path) -> dict[str, tuple[list[str], list[str]]]:
    """The words of each column and row in GLPK's report, of its first and of its second line there. A long name has a
    line of its own in front of the rest of the first.
    """
    report = folder / "report.txt"
    form = "--lp" if model.suffix == ".lp" else "--freemps"
    call = ["glpsol", form, str(model), "--nopresol", "--ranges", str(report)]
    subprocess.run(call, stdout=subprocess.DEVNULL, timeout=60, check=True)
    told: dict[str, tuple[list[str], list[str]]] = {}
    first: list[str] = []
    for line in report.read_text(encoding="utf-8").splitlines():
        words = line.split()
        if re.match(r" +[0-9]+ \S", line):
            first = words
        elif first and len(first) == 2:
            first += words
        elif first:
            told[first[1]], first = (first, words), []
    return told


def _as_glpk(end: pami.End, infinite: str) -> str:
    """An end with five digits behind the point, as GLPK writes it: 0 as a point, and none in front of one."""
    if not isinstance(end, Fraction):
        return infinite
    return re.sub(r"\b0\.(0{5}\Z)?", ".", f"{float(end):.5f}")


@pytest.mark.parametrize("name", ["diet.mps", "dispatch.mps", "blend.mps", "ferry.lp"])
def test_glpk_has_the_same_ranges(ranger: str, examples: Path, tmp_path: Path, name: str) -> None:
    """In the first line of a report the low ends of the activity and of the cost are words 6 and 7, in the second the
    high ones words 2 and 3.
    """
    if shutil.which("glpsol") is None:
        pytest.skip("glpsol isn't installed (Debian package glpk-utils)")
    result = pami.solve(examples / name, ranging=True, program=ranger)
    told = _told_by_glpk(examples / name, tmp_path)
    costs = {variable: (7, 3, it) for variable, it in result.cost_ranges.items()}
    bounds = {variable[2:]: (6, 2, it) for variable, it in result.bound_ranges.items()}
    for ranges in (costs, bounds):
        for variable, (low, high, it) in ranges.items():
            first, second = told[variable]
            assert (first[low], second[high]) == (_as_glpk(it.low, "-Inf"), _as_glpk(it.high, "+Inf")), variable


def _checked(program: str | Path) -> subprocess.CompletedProcess[str]:
    """What tools/check_ranging.py says of a program, on a few ends."""
    words = [sys.executable, str(TOP / "tools" / "check_ranging.py"), str(program), "--seed", "31", "--ends", "9"]
    return subprocess.run(words, capture_output=True, text=True, timeout=300, check=False)


def test_drawn_ends(ranger: str) -> None:
    ran = _checked(ranger)
    assert ran.returncode == 0, ran.stdout + ran.stderr
    assert ran.stdout.endswith("; 0 wrong\n")


@pytest.mark.parametrize(
    ("change", "why"),
    [
        (r"s/^\(range .*\) -\{0,1\}[0-9/]* inf$/\1 -inf inf/", "there is an end, and none is told"),
        (r"s/ wide / -inf /; s/^\(range .*\) wide$/\1 inf/", "there is an end, and none is told"),
        (r"s/^\(range .*\) .* .*$/\1 wide wide/", "each number of so small a model fits"),
        (r"s/^\(range .*\) \([1-9]\)\([0-9]*\)$/\1 1\2\3/", "the basis doesn't stay there"),
        (r"s/^\(range .*\) \(.*\) \(.*\)$/\1 \3 \2/", "is none of an answer"),
    ],
)
def test_wrong_ends_are_found(ranger: str, tmp_path: Path, change: str, why: str) -> None:
    """Stand-ins that change the ends on their way are found: an end that is left out, one not known told as none,
    all of them told as not known, a high end with a digit too many, and ends that are exchanged.
    """
    wrong = tmp_path / "wrong"
    told = f"text=$('{ranger}' \"$@\")\nstatus=$?\nprintf '%s\\n' \"$text\" | sed '{change}'\nexit $status\n"
    wrong.write_text(f"#!/bin/sh\n{told}")
    wrong.chmod(0o755)
    ran = _checked(wrong)
    assert ran.returncode == 1, ran.stdout + ran.stderr
    assert why in ran.stdout


def test_trial(drawer: str) -> None:
    drawn = pami.trial(7, 20, 30, program=drawer)
    assert drawn == pami.read_trial(TRIAL)
    assert (drawn.seed, drawn.rows, drawn.columns, drawn.objective) == (7, 20, 30, 6247)
    assert drawn.status is pami.Status.OPTIMAL
    assert (drawn.pivots, drawn.majors, drawn.flips, drawn.rollbacks) == (69, 22, 15, 0)
    assert pami.trial(1, 1, 1, program=drawer).objective == 702
    for words in ((2**32, 1, 1), (1, 0, 1), (1, 1, 65)):
        with pytest.raises(pami.BadWords, match="from 1 to 64"):
            pami.trial(*words, program=drawer)


def test_trial_faults() -> None:
    for cut in range(6, len(TRIAL)):
        with pytest.raises(pami.TextCut):
            pami.read_trial(TRIAL[:cut])
    for old, new in (("optimal", "best"), ("6247", "6247.0"), ("majors", "major"), ("objective 6247", "6247")):
        with pytest.raises(pami.TextFault):
            pami.read_trial(TRIAL.replace(old, new))
    with pytest.raises(pami.OtherProgram):
        pami.read_trial("bad words\n")
    stopped = pami.read_trial(TRIAL.replace("optimal objective 6247", "limit objective -"))
    assert (stopped.status, stopped.objective) == ("limit", None)


def test_older_program(tmp_path: Path, examples: Path) -> None:
    """A program that has neither says `bad words`, and the error says what that may mean."""
    older = tmp_path / "older"
    older.write_text("#!/bin/sh\necho bad words\nexit 2\n")
    older.chmod(0o755)
    with pytest.raises(pami.BadWords, match="`ranging` needs a program that has it"):
        pami.solve(examples / "diet.mps", ranging=True, program=older)
    with pytest.raises(pami.BadWords, match="the program has to have `trial`"):
        pami.trial(1, 1, 1, program=older)
