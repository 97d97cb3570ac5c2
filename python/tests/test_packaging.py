"""Man pages, the completion for bash, and the packages of `packaging/deb.sh`. What needs a tool that isn't there is
skipped.
"""

from __future__ import annotations

import os
import re
import shutil
import subprocess
import tarfile
from pathlib import Path

import pytest
from conftest import TOP

PAGES = ["pami.1", "pami-certificate.5"]


def _need(*tools: str) -> None:
    for tool in tools:
        if shutil.which(tool) is None:
            pytest.skip(f"{tool} isn't installed")


def _output(words: list[str | Path], **more: str) -> str:
    environment = {**os.environ, **more}
    ran = subprocess.run(words, env=environment, stdout=subprocess.PIPE, text=True, timeout=60, check=True)
    return ran.stdout


@pytest.mark.parametrize("page", PAGES)
def test_man_page(page: str) -> None:
    _need("scdoc")
    with open(TOP / "man" / f"{page}.scd", encoding="utf-8") as source:
        ran = subprocess.run(["scdoc"], stdin=source, capture_output=True, text=True, timeout=60, check=False)
    assert (ran.returncode, ran.stderr) == (0, "")
    name, section = page.split(".")
    assert f'.TH "{name}" "{section}"' in ran.stdout


def _heads(text: str) -> list[str]:
    """The words in bold that are lines of their own, each of which a paragraph explains."""
    found: list[str] = []
    for line in text.splitlines():
        if re.fullmatch(r"\*[\w-]+\*(?:, \*[\w-]+\*)*", line):
            found += re.findall(r"[\w-]+", line)
    return found


def _table(page: str, title: str, column: int) -> list[str]:
    """The words in backticks in a column of the table that begins so."""
    rows = (TOP / page).read_text(encoding="utf-8").split(title, 1)[1].split("\n\n", 1)[0].splitlines()[2:]
    return [word for row in rows for word in re.findall(r"`([^`]+)`", row.split("|")[column])]


def test_man_pages_agree_with_the_documents() -> None:
    """The statuses are those of README, the conditions those of CHECKING, and the faults those of FORMATS."""
    text = (TOP / "man" / "pami.1.scd").read_text(encoding="utf-8")
    statuses = re.findall(r"^\| (\d+) \|", (TOP / "README.md").read_text(encoding="utf-8"), re.M)
    assert [head for head in _heads(text) if head.isdecimal()] == statuses
    text = (TOP / "man" / "pami-certificate.5.scd").read_text(encoding="utf-8")
    conditions, faults = text.split("# FAULTS")
    assert _heads(conditions) == _table("docs/CHECKING.md", "| Certificate | CONDITION |", 2)
    assert _heads(faults) == _table("docs/FORMATS.md", "| Fault |", 1)


def _completed(*words: str) -> list[str]:
    """What is offered for the last word, in the folder of the examples."""
    script = """
        . "$0"
        COMP_WORDS=("$@")
        COMP_CWORD=$(($# - 1))
        _pami
        printf '%s\\n' "${COMPREPLY[@]}"
    """
    file = TOP / "packaging" / "pami.bash-completion"
    ran = subprocess.run(
        ["bash", "-c", script, file, *words],
        cwd=TOP / "examples",
        capture_output=True,
        text=True,
        timeout=60,
        check=True,
    )
    assert ran.stderr == ""
    return ran.stdout.split()


@pytest.mark.parametrize(
    ("words", "due"),
    [
        (["pami", ""], ["solve", "check", "trial"]),
        (["./pami", "s"], ["solve"]),
        (["pami", "solve", "di"], ["diet.mps", "dispatch.mps"]),
        (["pami", "check", "diet.mps", "dear"], ["dear_diet.txt"]),
        (["pami", "solve", "-"], ["--format", "--batch", "--refactor", "--limit", "--ranging"]),
        (["pami", "check", "--"], ["--format"]),
        (["pami", "solve", "--limit", "5", "-"], ["--format", "--batch", "--refactor", "--ranging"]),
        (["pami", "solve", "--ranging", "--"], ["--format", "--batch", "--refactor", "--limit"]),
        (["pami", "solve", "--ranging", "di"], ["diet.mps", "dispatch.mps"]),
        (["pami", "solve", "--format", "=", "lp", "--"], ["--batch", "--refactor", "--limit", "--ranging"]),
        (["pami", "solve", "--format", ""], ["mps", "lp"]),
        (["pami", "solve", "--format", "="], ["mps", "lp"]),
        (["pami", "solve", "--format", "=", "m"], ["mps"]),
        (["pami", "solve", "--batch", "1"], []),
        (["pami", "solve", "--", "fa"], ["farm.lp"]),
        (["pami", "solve", "--", "--l"], []),
        (["pami", "trial", "--"], []),
        (["pami", "trial", "7", ""], []),
    ],
)
def test_completion(words: list[str], due: list[str]) -> None:
    _need("bash")
    assert _completed(*words) == due


def _packed(kind: str, program: str, folder: Path) -> Path:
    folder.mkdir()
    script = TOP / "packaging" / "deb.sh"
    told = _output([script, kind, program, folder], DEBEMAIL="packer@example.org", VERSION="7")
    return Path(told.removesuffix("\n"))


def _has_all(usr: Path, program: str, examples: Path) -> None:
    ran = [
        subprocess.run([it, "solve", examples / "diet.mps"], capture_output=True, timeout=60, check=False)
        for it in (str(usr / "bin" / "pami"), program)
    ]
    assert ran[0].returncode == ran[1].returncode == 0
    assert ran[0].stdout == ran[1].stdout
    for page in PAGES:
        assert (usr / "share" / "man" / f"man{page[-1]}" / f"{page}.gz").exists()
    assert (usr / "share" / "bash-completion" / "completions" / "pami").exists()
    for name in ("FORMATS", "RANGING"):
        assert (usr / "share" / "doc" / "pami" / "docs" / f"{name}.md").exists()


def test_deb(program: str, examples: Path, tmp_path: Path) -> None:
    _need("scdoc", "strip", "objdump", "dpkg-deb")
    package = _packed("deb", program, tmp_path / "one")
    assert package.read_bytes() == _packed("deb", program, tmp_path / "two").read_bytes()
    assert _output(["dpkg-deb", "-f", package, "Package", "Version"]) == "Package: pami\nVersion: 7\n"
    _output(["dpkg-deb", "-x", package, tmp_path / "root"])
    _has_all(tmp_path / "root" / "usr", program, examples)


def test_tarball(program: str, examples: Path, tmp_path: Path) -> None:
    _need("scdoc", "strip")
    package = _packed("tarball", program, tmp_path / "one")
    assert package.read_bytes() == _packed("tarball", program, tmp_path / "two").read_bytes()
    with tarfile.open(package) as archive:
        archive.extractall(tmp_path)
    _has_all(tmp_path / package.name.removesuffix(".tar.gz"), program, examples)


def test_packing_without_program(tmp_path: Path) -> None:
    _need("scdoc", "strip")
    script = TOP / "packaging" / "deb.sh"
    ran = subprocess.run(
        [script, "tarball", tmp_path / "none", tmp_path], capture_output=True, text=True, timeout=60, check=False
    )
    assert (ran.returncode, ran.stdout) == (1, "")
    assert f"there is no program at {tmp_path}/none" in ran.stderr
