"""`sweep` over the executors of the standard library and over Dask's. The answers are those of docs/FORMATS.md."""

from __future__ import annotations

from collections.abc import Callable, Iterator
from concurrent.futures import Executor, ProcessPoolExecutor, ThreadPoolExecutor
from contextlib import AbstractContextManager, contextmanager
from fractions import Fraction
from pathlib import Path

import pami
import pytest

OBJECTIVES = {"diet.mps": Fraction(455, 2), "dispatch.mps": 13437, "farm.lp": 36400, "joinery.mps": 9680}


@contextmanager
def _threads() -> Iterator[Executor]:
    with ThreadPoolExecutor(2) as pool:
        yield pool


@contextmanager
def _processes() -> Iterator[Executor]:
    with ProcessPoolExecutor(2) as pool:
        yield pool


@contextmanager
def _dask() -> Iterator[Executor]:
    distributed = pytest.importorskip("distributed", reason="python3-distributed isn't installed")
    with distributed.LocalCluster(
        n_workers=2, threads_per_worker=1, processes=True, dashboard_address=None
    ) as cluster, distributed.Client(cluster) as client:
        yield client.get_executor()


@pytest.mark.parametrize("open_executor", [_threads, _processes, pytest.param(_dask, marks=pytest.mark.cluster)])
def test_executors(
    program: str, examples: Path, open_executor: Callable[[], AbstractContextManager[Executor]]
) -> None:
    models = [examples / name for name in OBJECTIVES]
    with open_executor() as executor:
        scenarios = pami.sweep(models, executor=executor, program=program)
        # The executor is left open, and is used again: three other answers, and an error.
        others = pami.sweep(
            [examples / "bakery.mps", examples / "exchange.lp", examples / "wide.mps", examples / "none.lp"],
            executor=executor,
            program=program,
        )
    assert [it.model for it in scenarios] == models
    assert [it.result.objective for it in scenarios] == list(OBJECTIVES.values())
    assert [it.result.status for it in others[:3]] == ["infeasible", "dual-infeasible", "overflow"]
    assert isinstance(others[3].error, pami.MissingFile)


def test_texts(program: str) -> None:
    """The least x that is at least a bound is the bound."""
    texts = (f"Minimize\n x\nst\n x >= {bound}\nEnd\n" for bound in range(20))
    scenarios = pami.sweep(texts, program=program)
    assert [it.result["x"] for it in scenarios] == list(range(20))


def test_an_error_is_kept(program: str, examples: Path) -> None:
    scenarios = pami.sweep([examples / "diet.mps", "nonsense\n", examples / "farm.lp"], program=program, limit=0)
    assert [it.error is None for it in scenarios] == [True, False, True]
    assert scenarios[0].result.status == "limit"
    assert isinstance(scenarios[1].outcome, pami.Refused)
    with pytest.raises(pami.Refused):
        scenarios[1].result


def test_no_models(program: str) -> None:
    assert pami.sweep([], program=program) == []
