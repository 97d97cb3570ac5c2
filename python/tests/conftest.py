"""Finds the built program: PAMI in the environment, or what the repository's `./pami` has built. Tests without it are
skipped.
"""

from __future__ import annotations

import os
import subprocess
import sys
from pathlib import Path

import pytest

TOP = Path(__file__).resolve().parents[2]
BUILT = TOP / "crates" / "pami_cli" / "out" / "pami_cli"
sys.path.insert(0, str(TOP / "python" / "src"))


@pytest.fixture(scope="session")
def program() -> str:
    """The path of the built program. `./pami` itself isn't called, as it would build for a quarter of an hour."""
    for path in (os.environ.get("PAMI"), str(BUILT)):
        if path and os.access(path, os.X_OK):
            return os.path.abspath(path)
    pytest.skip("no built program: call ./pami once, or set PAMI to its path")


def _knows(program: str, words: list[str]) -> bool:
    """Whether these words are in the program's table."""
    ran = subprocess.run([program, *words], cwd=TOP, stdout=subprocess.DEVNULL, timeout=60, check=False)
    return ran.returncode != 2


@pytest.fixture(scope="session")
def ranger(program: str) -> str:
    """The built program, where it has `--ranging`."""
    if not _knows(program, ["solve", "examples/diet.mps", "--ranging"]):
        pytest.skip("the built program has no --ranging")
    return program


@pytest.fixture(scope="session")
def drawer(program: str) -> str:
    """The built program, where it has `trial`."""
    if not _knows(program, ["trial", "1", "1", "1"]):
        pytest.skip("the built program has no trial")
    return program


@pytest.fixture(scope="session")
def examples() -> Path:
    return TOP / "examples"
