"""The recipes of docs/MANY_MODELS.md, each with its tool where that is installed: answers are kept, also where they
aren't optimal, and a model that is refused is a failure and stops no other.
"""

from __future__ import annotations

import os
import shlex
import shutil
import subprocess
from pathlib import Path

import pytest
from conftest import TOP

ANSWERS = {"diet.mps": "optimal", "farm.lp": "optimal", "bakery.mps": "infeasible", "exchange.lp": "dual-infeasible"}


@pytest.fixture
def folder(program: str, examples: Path, tmp_path: Path) -> Path:
    """A folder with the files of the page, four models, one that is refused, and the program under its name."""
    for file in (TOP / "examples" / "many").iterdir():
        shutil.copy(file, tmp_path)
    (tmp_path / "models").mkdir()
    for name in ANSWERS:
        shutil.copy(examples / name, tmp_path / "models")
    (tmp_path / "models" / "bad.mps").write_text("nonsense\n")
    (tmp_path / "bin").mkdir()
    (tmp_path / "bin" / "pami").symlink_to(program)
    return tmp_path


def _run(folder: Path, command: str, **more: str) -> tuple[int, str]:
    """Status and standard error of a shell's command in the folder."""
    environment = {**os.environ, "PATH": f"{folder}/bin:{os.environ['PATH']}", "HOME": str(folder), **more}
    ran = subprocess.run(
        ["sh", "-c", command], cwd=folder, env=environment, capture_output=True, text=True, timeout=120, check=False
    )
    return ran.returncode, ran.stderr


def _has_answers(folder: Path) -> None:
    texts = {path.name: path.read_text().split("\n") for path in (folder / "models").glob("*.txt")}
    assert texts.keys() == {f"{name}.txt" for name in ANSWERS}
    for name, answer in ANSWERS.items():
        assert f"answer {answer}" in texts[f"{name}.txt"]
    assert not list(folder.glob("models/*.part"))


@pytest.mark.parametrize(
    ("tool", "command"),
    [
        ("parallel", "parallel --jobs 2 --joblog jobs.log sh answer.sh {} {}.txt ::: models/*.mps models/*.lp"),
        ("make", "make -j2 -k"),
        ("snakemake", "snakemake --cores 2 --keep-going"),
    ],
)
def test_tools(folder: Path, tool: str, command: str) -> None:
    if shutil.which(tool) is None:
        pytest.skip(f"{tool} isn't installed")
    # An older answer of a model that is refused now.
    (folder / "models" / "bad.mps.txt").write_text("old\n")
    os.utime(folder / "models" / "bad.mps.txt", (10**9, 10**9))
    status, error = _run(folder, command)
    assert status != 0
    assert "models/bad.mps: status 3 refused 1 section" in error
    _has_answers(folder)
    (folder / "models" / "bad.mps").unlink()
    assert _run(folder, command)[0] == 0
    _has_answers(folder)


def test_array(folder: Path) -> None:
    _run(folder, "ls models/*.mps models/*.lp >models.list")
    models = (folder / "models.list").read_text().split()
    ended = [_run(folder, "sh array.sh", SLURM_ARRAY_TASK_ID=str(task + 1))[0] for task in range(len(models))]
    assert ended == [int(model == "models/bad.mps") for model in models]
    _has_answers(folder)


def test_names(folder: Path) -> None:
    """A name with a blank, and one that begins with a dash."""
    for name in ("-a b.mps", "c d.mps"):
        shutil.move(folder / "models" / "diet.mps", folder / name)
        shutil.copy(folder / name, folder / "models" / "diet.mps")
        status, error = _run(folder, f"sh answer.sh {shlex.quote(name)} {shlex.quote(name + '.txt')}")
        assert (status, error) == (0, "")
        assert "answer optimal" in (folder / f"{name}.txt").read_text()
