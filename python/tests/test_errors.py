"""Bad input: each fault has an error of its own name, which says what to do."""

from __future__ import annotations

import os
import pickle
import stat
from concurrent.futures import ProcessPoolExecutor
from fractions import Fraction
from pathlib import Path

import pami
import pytest

OPTIMAL = """pami 1
model 1 1 1
phase 2
major 1 full 0
pivot 1 0 r:c L x:x 1/2
answer optimal
certificate 1 optimal
objective 1/2
x x 1/2 0
r c 1 1/2
end
basis B L
"""


def script(folder: Path, body: str) -> str:
    """A program of this name that does what is said."""
    path = folder / "program"
    path.write_text("#!/bin/sh\n" + body)
    path.chmod(path.stat().st_mode | stat.S_IXUSR)
    return str(path)


def test_no_program(monkeypatch: pytest.MonkeyPatch, tmp_path: Path, examples: Path) -> None:
    with pytest.raises(pami.ProgramMissing, match="the argument"):
        pami.solve(examples / "diet.mps", program=tmp_path / "nothing")
    monkeypatch.setenv("PAMI", str(tmp_path / "nothing"))
    with pytest.raises(pami.ProgramMissing, match="PAMI"):
        pami.solve(examples / "diet.mps")


def test_where_the_program_is_found(monkeypatch: pytest.MonkeyPatch, tmp_path: Path) -> None:
    first, second = tmp_path / "first", tmp_path / "second"
    for folder in (first, second):
        folder.mkdir()
        os.rename(script(folder, ""), folder / "pami")
    monkeypatch.setenv("PATH", str(first))
    monkeypatch.delenv("PAMI", raising=False)
    assert pami.find_program() == str(first / "pami")
    monkeypatch.setenv("PAMI", str(second / "pami"))
    assert pami.find_program() == str(second / "pami")
    assert pami.find_program(first / "pami") == str(first / "pami")
    monkeypatch.delenv("PAMI")
    monkeypatch.setenv("PATH", str(tmp_path))
    assert pami.find_program() == str(Path(__file__).parents[2] / "pami")


@pytest.mark.parametrize(
    ("body", "error"),
    [
        ("echo hello", pami.OtherProgram),
        ("echo pami 2; exit 0", pami.OtherProgram),
        ("exit 77", pami.OtherProgram),
        ("exit 70", pami.ProgramMissing),
        ("echo bad words; exit 2", pami.BadWords),
        ("echo refused 2 section; exit 3", pami.Refused),
        ("echo read fault; exit 4", pami.ReadFault),
        ("exit 5", pami.WriteFault),
        ("exit 6", pami.OutOfMemory),
        ("printf 'pami 1\\nmodel 1'; exit 0", pami.TextCut),
        ("exec sleep 9", pami.TookTooLong),
    ],
)
def test_other_programs(tmp_path: Path, examples: Path, body: str, error: type[pami.PamiError]) -> None:
    program = script(tmp_path, body)
    with pytest.raises(error):
        pami.solve(examples / "diet.mps", program=program, timeout=0.5 if error is pami.TookTooLong else 60)


def test_every_front_of_a_text_is_cut() -> None:
    whole = pami.read_result(OPTIMAL)
    assert whole["x"] == pami.read_result(OPTIMAL.replace("\n", "\r\n"))["x"]
    for size in range(len(OPTIMAL)):
        with pytest.raises((pami.TextCut, pami.OtherProgram)) as caught:
            pami.read_result(OPTIMAL[:size])
        # Only a text without a whole first line may be taken for another one.
        assert isinstance(caught.value, pami.TextCut) or size <= len("pami 1")


@pytest.mark.parametrize(
    ("old", "new"),
    [
        ("x x 1/2 0", "x x 2/4 0"),
        ("x x 1/2 0", "x x 0.5 0"),
        ("x x 1/2 0", "x x 1/2"),
        ("model 1 1 1", "model 2 1 1"),
        ("answer optimal", "answer perhaps"),
        ("basis B L", "basis BB L"),
        ("basis B L", "basis B Q"),
        ("major 1 full 0", "minor 1 full 0"),
        ("pivot 1 0", "pivot -1 0"),
        ("model 1 1 1", "model 1 1"),
    ],
)
def test_changed_texts(old: str, new: str) -> None:
    with pytest.raises(pami.TextFault, match="line"):
        pami.read_result(OPTIMAL.replace(old, new))


def test_missing_files(program: str, tmp_path: Path, examples: Path) -> None:
    with pytest.raises(pami.MissingFile) as caught:
        pami.solve("nothing.mps", program=program)
    assert caught.value.file == "nothing.mps"
    assert isinstance(caught.value, FileNotFoundError)
    with pytest.raises(pami.MissingFile) as caught:
        pami.check(examples / "diet.mps", tmp_path / "nothing.txt", program=program)
    assert caught.value.file == str(tmp_path / "nothing.txt")
    with pytest.raises(pami.ReadFault, match="directory"):
        pami.check(examples / "diet.mps", tmp_path, program=program)


def test_refusals(program: str, tmp_path: Path) -> None:
    path = tmp_path / "model.lp"
    path.write_text("Minimize\n x\nst\n c: 2 x >= 1\nGeneral\n x\nEnd\n")
    with pytest.raises(pami.IntegerModel) as integer:
        pami.solve(path, program=program)
    assert (integer.value.file, integer.value.line, integer.value.kind) == (str(path), 5, "integer")
    assert "relaxed" in str(integer.value)
    with pytest.raises(pami.Refused) as refused:
        pami.solve("NAME\nROWS\n N cost\n Q row\n", program=program)
    assert (refused.value.line, refused.value.kind, refused.value.source) == (4, "row-type", " Q row")
    assert "the text of the model, line 4" in str(refused.value)
    with pytest.raises(pami.Refused, match="format='mps'"):
        pami.solve("NAME\nROWS\n N cost\n", format="lp", program=program)
    far = "Minimize\n x\nst\n c: x >= 0\nBounds\n 1e-38 <= x <= 1e19\nEnd\n"
    with pytest.raises(pami.Refused) as width:
        pami.solve(far, program=program)
    assert (width.value.line, width.value.kind, width.value.source) == (0, "width", "x:x")


def test_bad_limit(program: str, examples: Path) -> None:
    with pytest.raises(pami.BadWords, match="1000000"):
        pami.solve(examples / "diet.mps", limit=1000001, program=program)


def test_names_that_look_like_options(program: str, tmp_path: Path, monkeypatch: pytest.MonkeyPatch) -> None:
    monkeypatch.chdir(tmp_path)
    Path("--limit").write_text("NAME\nROWS\n N cost\n G row\nCOLUMNS\n x cost 1 row 1\nRHS\n s row 3\nENDATA\n")
    assert pami.solve("--limit", program=program).objective == 3


def test_other_model() -> None:
    own = "Minimize\n x\nst\n c: 2 x >= 1\nEnd\n"
    assert pami.read_result(OPTIMAL, pami.read_model(own))["x"] == Fraction(1, 2)
    for other in (own.replace("x", "y"), own.replace("c:", "d:"), own.replace("2 x", "2 x + y")):
        with pytest.raises(pami.OtherModel):
            pami.read_result(OPTIMAL, pami.read_model(other))
    with pytest.raises(pami.TextFault):
        pami.read_result(OPTIMAL.replace("model 1 1 1", "model 2 1 1").replace("r c 1 1/2\n", "r c 1 1/2\n" * 2))


@pytest.mark.parametrize(
    "error",
    [
        pami.ProgramMissing("it isn't there"),
        pami.Refused("model.mps", 7, "words", " x cost"),
        pami.IntegerModel("model.lp", 7, "integer", "General"),
        pami.MissingFile("model.mps", "there is no such file"),
        pami.Overflow("factor", "div", Fraction(1, 3), Fraction(10)),
        pami.LimitReached(7),
        pami.TextFault(3, "what"),
        pami.Infeasible(),
    ],
)
def test_errors_go_between_processes(error: pami.PamiError) -> None:
    other = pickle.loads(pickle.dumps(error))
    assert type(other) is type(error)
    assert str(other) == str(error)
    assert vars(other) == vars(error)


def test_results_come_from_other_processes(program: str, examples: Path, monkeypatch: pytest.MonkeyPatch) -> None:
    monkeypatch.setenv("PAMI", program)
    names = ["diet.mps", "bakery.mps", "exchange.lp", "wide.mps"]
    with ProcessPoolExecutor(2) as pool:
        results = list(pool.map(pami.solve, [examples / name for name in names]))
    assert [result.status.value for result in results] == ["optimal", "infeasible", "dual-infeasible", "overflow"]
    assert results[1].explain_infeasible().due == 19
