"""The script `./pami`, with a stand-in for the program and one for the toolchain: nothing is built here."""

from __future__ import annotations

import os
import shutil
import subprocess
from pathlib import Path

import pytest
from conftest import TOP

USAGE = """\
usage: pami solve FILE [--format mps|lp] [--batch S] [--refactor R] [--limit K] [--ranging]
       pami check FILE CERT [--format mps|lp]
       pami trial SEED ROWS COLUMNS
"""
# Says its words, each in a line, and ends with a status that ./pami doesn't have of its own.
STAND_IN = "#!/bin/sh\nprintf 'word %s\\n' \"$@\"\nexit 33\n"


def _executable(path: Path, text: str) -> None:
    path.parent.mkdir(parents=True, exist_ok=True)
    path.write_text(text)
    path.chmod(0o755)


@pytest.fixture(scope="module")
def script(tmp_path_factory: pytest.TempPathFactory) -> Path:
    """A copy of the script beside a stand-in that counts as built."""
    top = tmp_path_factory.mktemp("top")
    (top / "tools").mkdir()
    for name in ("pami", "crates.txt", "tools/stamp.sh"):
        shutil.copy(TOP / name, top / name)
    _executable(top / "crates/pami_cli/out/pami_cli", STAND_IN)
    _executable(top / "bin/rt", "#!/bin/sh\necho a stand-in\n")
    stamp = 'top=$PWD; . tools/stamp.sh; write_stamp "$(made_of)"'
    subprocess.run(["bash", "-c", stamp], cwd=top, env=_environment(top), check=True)
    return top / "pami"


def _environment(top: Path) -> dict[str, str]:
    return {**os.environ, "PATH": f"{top}/bin:/usr/bin:/bin"}


@pytest.mark.parametrize("words", [[], ["--help"], ["solve", "diet.mps", "--help"], ["check", "--help", "--"]])
def test_usage(script: Path, words: list[str]) -> None:
    _is_told(script, words, USAGE)


@pytest.mark.parametrize(
    "words", [["solve", "diet.mps"], ["help"], ["-h"], ["solve", "--", "--help"], ["solve", "a b", ""]]
)
def test_no_usage(script: Path, words: list[str]) -> None:
    _is_told(script, words, "")


def _is_told(script: Path, words: list[str], error: str) -> None:
    """What stands on standard error; the words, standard output and the status are the program's."""
    ran = subprocess.run(
        [script, *words], env=_environment(script.parent), capture_output=True, text=True, timeout=60, check=False
    )
    assert ran.stderr == error
    assert ran.stdout == "".join(f"word {word}\n" for word in words or [""])
    assert ran.returncode == 33


def test_usage_lines() -> None:
    """The script's lines of usage are those of the documents."""
    lines = [line.removeprefix("usage:").strip() for line in USAGE.splitlines()]
    for page in ("README.md", "docs/FORMATS.md"):
        text = (TOP / page).read_text(encoding="utf-8")
        assert "".join(f"    {line}\n" for line in lines) in text
