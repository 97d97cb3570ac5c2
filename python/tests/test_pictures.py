"""Pictures of runs. The texts are those of the tests of the replay."""

from __future__ import annotations

import sys
import xml.etree.ElementTree
from pathlib import Path
from typing import Any

import pami
import pytest
from pami.__main__ import main
from test_replay import DIET, WIDE


def hide(monkeypatch: pytest.MonkeyPatch, package: str) -> None:
    """Lets a package be missing."""
    modules: dict[str, Any] = sys.modules
    monkeypatch.setitem(modules, package, None)


@pytest.fixture
def draws() -> None:
    pytest.importorskip("matplotlib", reason="python3-matplotlib isn't installed")


@pytest.mark.usefixtures("draws")
def test_pictures(examples: Path, tmp_path: Path) -> None:
    for name, text in (("diet.mps", DIET), ("wide.mps", WIDE)):
        out = tmp_path / f"{name}.svg"
        pami.plot(text, examples / name, out=out)
        first = out.read_bytes()
        xml.etree.ElementTree.fromstring(first)
        pami.plot(text, examples / name, out=out)
        assert out.read_bytes() == first
        # matplotlib keeps each text as a comment beside its letters.
        assert f"{name}:".encode() in first
    pami.plot(DIET, examples / "diet.mps", out=tmp_path / "run.PNG", every=2)
    assert (tmp_path / "run.PNG").read_bytes().startswith(b"\x89PNG")


@pytest.mark.usefixtures("draws")
def test_any_run_can_be_drawn(program: str, examples: Path, tmp_path: Path) -> None:
    limited = [(examples / "farm.lp", 0), (examples / "farm.lp", 1)]
    for model, limit in [*limited, *((model, None) for model in [*examples.glob("*.mps"), *examples.glob("*.lp")])]:
        pami.plot(pami.solve(model, limit=limit, program=program), out=tmp_path / "run.svg")
        xml.etree.ElementTree.parse(tmp_path / "run.svg")
    # What the row comes to at the start doesn't fit, so there is no phase.
    wide = "Minimize\n x\nst\n c: 1e-38 x + 1.1e19 y >= 1\nBounds\n 1.1 <= x\n 1.1e19 <= y\nEnd\n"
    result = pami.solve(wide, format="lp", program=program)
    assert (result.status, result.events) == (pami.Status.OVERFLOW, ())
    assert pami.plot(result, out=tmp_path / "run.svg").points == ()


@pytest.mark.usefixtures("draws")
def test_files_of_pictures(examples: Path, tmp_path: Path) -> None:
    with pytest.raises(pami.UnknownPicture, match=".svg and .png"):
        pami.plot(DIET, examples / "diet.mps", out=tmp_path / "run.gif")
    with pytest.raises(pami.WriteFault, match="can't be written"):
        pami.plot(DIET, examples / "diet.mps", out=tmp_path / "nothing" / "run.svg")


@pytest.mark.usefixtures("draws")
def test_command(examples: Path, tmp_path: Path, capsys: pytest.CaptureFixture[str]) -> None:
    text, model = tmp_path / "run.txt", str(examples / "diet.mps")
    text.write_text(DIET)
    for out in ("run.svg", "run.png"):
        assert main(["plot", str(text), model, "-o", str(tmp_path / out), "--every", "2"]) == 0
        assert (tmp_path / out).stat().st_size > 1000
    for given in ([str(text), str(examples / "farm.lp")], [model, model]):
        assert main(["plot", *given, "-o", str(tmp_path / "run.svg")]) == 1
    assert capsys.readouterr().err.count("pami: the text ") == 2
    with pytest.raises(SystemExit):
        main(["plot", str(text), model, "-o", "run.svg", "--every", "0"])


def test_no_package(examples: Path, tmp_path: Path, monkeypatch: pytest.MonkeyPatch) -> None:
    hide(monkeypatch, "matplotlib")
    with pytest.raises(pami.PackageMissing, match="python3-matplotlib"):
        pami.plot(DIET, examples / "diet.mps", out=tmp_path / "run.svg")
    assert not list(tmp_path.iterdir())
