"""Solves many models, by any executor of `concurrent.futures`."""

from __future__ import annotations

import os
from collections.abc import Iterable
from concurrent.futures import Executor, ThreadPoolExecutor
from dataclasses import dataclass
from functools import partial
from typing import Any

from .answer import Result
from .errors import PamiError
from .model import Format
from .program import solve
from .source import Source


@dataclass(frozen=True)
class Scenario:
    """A model, and what `solve` made of it: a result, or the error that it raised."""

    model: Source
    outcome: Result | PamiError

    @property
    def result(self) -> Result:
        """The result. Where there is none, the error is raised."""
        if isinstance(self.outcome, PamiError):
            raise self.outcome
        return self.outcome

    @property
    def error(self) -> PamiError | None:
        """The error, where there is no result."""
        return self.outcome if isinstance(self.outcome, PamiError) else None


def sweep(
    models: Iterable[Source],
    *,
    executor: Executor | None = None,
    format: Format | None = None,
    batch: int | None = None,
    refactor: int | None = None,
    limit: int | None = None,
    ranging: bool = False,
    program: Source | None = None,
    timeout: float | None = None,
) -> list[Scenario]:
    """Solves each of the models, with the options of `solve`, and answers in their order. An error of one model is kept
    in its scenario and leaves the others alone.

    `executor` runs the calls; it is left open. Without one, as many threads run them as there are processors: a thread
    only waits for its program. Where an executor works on another machine, the program and the files are looked for
    there, and a text is sent along.
    """
    call = partial(
        _scenario,
        format=format,
        batch=batch,
        refactor=refactor,
        limit=limit,
        ranging=ranging,
        program=program,
        timeout=timeout,
    )
    if executor is not None:
        return list(executor.map(call, models))
    with ThreadPoolExecutor(os.cpu_count()) as pool:
        return list(pool.map(call, models))


def _scenario(model: Source, **options: Any) -> Scenario:
    try:
        return Scenario(model, solve(model, **options))
    except PamiError as error:
        return Scenario(model, error)
