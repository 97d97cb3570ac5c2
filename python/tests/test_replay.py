"""Runs replayed. Expected numbers are worked out by hand from the models' rows and costs."""

from __future__ import annotations

import subprocess
import sys
from fractions import Fraction
from pathlib import Path

import pami
import pytest

TOOLS = Path(__file__).resolve().parents[2] / "tools"
SEED, MODELS = 11, 60

# A lunch by examples/diet.mps with four rows a major: two drops in the first one and in the second one.
DIET = """pami 1
model 5 5 19
phase 2
major 1 full 0 1 2 3
pivot 1 0 r:energy L x:bread 10
drop 1
drop 2
pivot 2 3 r:vitamin_c L x:vegetables 5/2
major 2 full 1 2 4
pivot 3 1 r:protein L x:milk 25/2
drop 2
drop 4
major 3 full 4
pivot 4 4 r:fat U x:lentils 10
answer optimal
certificate 1 optimal
objective 455/2
x bread 21/4 0
x milk 3/2 0
x lentils 5/4 0
x cheese 0 20
x vegetables 3/2 0
r energy 18 10
r protein 10 10
r calcium 11 0
r vitamin_c 6 5/4
r fat 6 -10
end
basis BBBLB LLBLU
"""
# examples/wide.mps with two rows a major: the first is rolled back, the second works on one row and is kept.
ONE = f"1/1{'0' * 38}"
WIDE = f"""pami 1
model 2 1 2
phase 2
rollback 1 reach-1-1 div -{ONE} -10
major 2 single 0
pivot 1 0 r:tens L x:x 1/10
rollback 3 backward-1 div {ONE} -10
answer overflow factor div {ONE} 10
"""


def test_diet(examples: Path) -> None:
    """Without lunch 18 energy, 10 protein, 9 calcium and 6 vitamin C are missed. 18 / 2.5 bread cost 25 each, and 6
    vitamin C cost 5/2 each beside them.
    """
    run = pami.trace(DIET, examples / "diet.mps")
    assert [it.objective for it in run.points][:3] == [0, 180, 195]
    assert [(it.infeasibility, it.missed) for it in run.points][:: len(run.points) - 1] == [(43, 4), (0, 0)]
    assert run.points[-1].objective == Fraction(455, 2)
    assert [(it.number, it.first, it.last) for it in run.rounds] == [(1, 0, 2), (2, 2, 3), (3, 3, 4)]
    assert [(it.kind, it.pivots, it.what) for it in run.marks][:2] == [
        ("drop", 1, "r:protein"),
        ("drop", 1, "r:calcium"),
    ]
    assert (run.name, run.values["r:calcium"]) == ("diet.mps", 11)
    coarse = pami.trace(DIET, examples / "diet.mps", every=3)
    assert [it.pivots for it in coarse.points] == [0, 3, 4]
    assert coarse.points[1:] == run.points[3:]


def test_rollbacks(examples: Path) -> None:
    run = pami.trace(WIDE, examples / "wide.mps")
    assert [(it.kind, it.pivots) for it in run.marks] == [("rollback", 0), ("rollback", 1)]
    assert [(it.mode, it.places) for it in run.rounds] == [("single", (0,))]
    # The second row has 1e-38 of the 1 that it needs for each of 10.
    assert run.points[-1].infeasibility == 1 - Fraction(10, 10**38)


def test_phases_of_a_maximum(program: str, examples: Path) -> None:
    """In the boxes all three crops stand at 1, worth 700 together; phase 1 ends at 0, and no plan is above a point of
    phase 2.
    """
    run = pami.trace(pami.solve(examples / "farm.lp", program=program))
    assert run.phases == (1, 2)
    first, second = ([it.objective for it in run.at(phase)] for phase in run.phases)
    assert (first[0], first[-1], second[-1]) == (700, 0, 36400)
    assert first == sorted(first, reverse=True) and second == sorted(second, reverse=True)


def test_drawn(program: str, tmp_path: Path) -> None:
    """What every run of the dual simplex method keeps, at each basis solved afresh: the objective never falls, phase 1
    ends at 0 exactly where phase 2 begins, and the last values are those of the answer, which `trace` compares.
    """
    words = [sys.executable, str(TOOLS / "draw_models.py"), "--seed", str(SEED), "--count", str(MODELS), str(tmp_path)]
    subprocess.run(words, check=True, capture_output=True)
    limits = dict(line.split() for line in (tmp_path / "limits.txt").read_text().splitlines())
    traced = 0
    for path in sorted(tmp_path.glob("*.mps")):
        limit = int(limits.get(path.name, limits.get(path.stem, "200")))
        try:
            run = pami.trace(pami.solve(path, limit=limit, program=program))
        except pami.Refused:
            continue
        for phase in run.phases:
            costs = [it.minimised for it in run.at(phase)]
            assert costs == sorted(costs), path.read_text()
        if run.phases == (1, 2):
            assert run.at(1)[-1].minimised == 0, path.read_text()
        if run.result.status is pami.Status.DUAL_INFEASIBLE:
            assert run.at(1)[-1].minimised < 0, path.read_text()
        traced += 1
    assert traced > MODELS // 2


@pytest.mark.parametrize(
    ("old", "new", "error"),
    [
        ("basis BBBLB LLBLU\n", "", pami.TextCut),
        ("pami 1", "certificate 1", pami.OtherProgram),
        ("major 1 full", "minor 1 full", pami.TextFault),
        ("drop 1", "drop", pami.TextFault),
        ("model 5 5 19", "model 5 5 18", pami.OtherModel),
        ("x cheese", "x caviar", pami.OtherModel),
        ("L x:bread", "L x:caviar", pami.OtherModel),
        ("L x:bread", "L x:cheese", pami.OtherRun),
        ("L x:bread", "U x:bread", pami.OtherRun),
        ("pivot 2 3", "pivot 3 3", pami.OtherRun),
        ("pivot 2 3", "pivot 2 4", pami.OtherRun),
        ("drop 2", "drop 5", pami.OtherRun),
        ("drop 2", "flip x:milk U", pami.OtherRun),
        ("phase 2\n", "", pami.OtherRun),
        ("phase 2", "phase 3", pami.OtherRun),
        ("major 1 full 0 1 2 3\n", "", pami.OtherRun),
        ("x bread 21/4", "x bread 5", pami.OtherRun),
        ("BBBLB", "BBBUB", pami.OtherRun),
        # Fat leaves to its upper bound with nothing in the way of it.
        ("pivot 1 0 r:energy L x:bread", "pivot 1 4 r:fat U x:bread", pami.OtherRun),
    ],
)
def test_other_texts(examples: Path, old: str, new: str, error: type[pami.PamiError]) -> None:
    with pytest.raises(error) as caught:
        pami.trace(DIET.replace(old, new, 1), examples / "diet.mps")
    assert type(caught.value) is error


def test_other_numbers(examples: Path) -> None:
    """A model with the same names and sizes and another side or cost has other values at the same basis."""
    model = (examples / "diet.mps").read_text()
    for line in model.splitlines():
        if "energy" in line and "18" in line:
            with pytest.raises(pami.OtherRun):
                pami.trace(DIET, model.replace(line, line.replace("18", "19")))
            return
    pytest.fail("the side of energy isn't where it was")
