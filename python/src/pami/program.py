"""Finds the program pami, calls it, and tells what went wrong by the name of an error."""

from __future__ import annotations

import os
import re
import shutil
import subprocess
import tempfile
from collections.abc import Iterator
from contextlib import contextmanager
from dataclasses import dataclass
from pathlib import Path

from .answer import Result, number, read_result
from .errors import (
    BadWords,
    IntegerModel,
    MissingFile,
    ModelFault,
    OtherProgram,
    OutOfMemory,
    PamiError,
    ProgramMissing,
    ReadFault,
    Refused,
    TextCut,
    TookTooLong,
    WriteFault,
)
from .model import Format
from .source import ENCODING, ERRORS, HINT, Source, guess_format, is_text, read_model, read_text
from .summary import Trial, read_trial
from .verdict import Verdict

REFUSED = re.compile(r"refused ([0-9]+) (\S+)(?: (\S+))?\n\Z")
ANSWERS, VERDICTS = (0, 10, 11, 12, 13), (0, 20, 21, 22)
# What is asked of the words, for whom they are bad words.
OF_SOLVE = (
    "a batch is from 1 to 8, a refactor number from 0 to 64, a limit from 0 to 1000000, names are UTF-8 texts, and "
    "`ranging` needs a program that has it"
)
OF_TRIAL = "a seed is from 0 to 4294967295, rows and columns are from 1 to 64, and the program has to have `trial`"
# What the script ./pami ends with where it can't build the program.
NOT_BUILT = 70


@dataclass(frozen=True)
class _File:
    """A file that the program is given, and what messages call it."""

    path: str
    shown: str


def find_program(program: Source | None = None) -> str:
    """The path of the program: the one that is given, else that of the environment variable PAMI, else `pami` on the
    path, else `./pami` of the repository that this package stands in, which builds the program on first use.
    """
    given = os.fspath(program) if program is not None else os.environ.get("PAMI")
    if given:
        found = shutil.which(given)
        if found is None:
            told = "the argument `program`" if program is not None else "the environment variable PAMI"
            raise ProgramMissing(f"there is no program at {given!r}, which {told} names")
        return os.path.abspath(found)
    found = shutil.which("pami")
    if found is not None:
        return found
    top = Path(__file__).resolve().parents[3]
    if (top / "crates.txt").exists() and os.access(top / "pami", os.X_OK):
        return str(top / "pami")
    raise ProgramMissing(
        "the program pami isn't there. Call ./pami in its repository once, which builds it, and put it on the path as "
        "`pami`, or set the environment variable PAMI to its path"
    )


def solve(
    model: Source,
    *,
    format: Format | None = None,
    batch: int | None = None,
    refactor: int | None = None,
    limit: int | None = None,
    ranging: bool = False,
    program: Source | None = None,
    timeout: float | None = None,
) -> Result:
    """Solves a model: the name of a file, or a text, which is a str with a line end in it.

    `batch` is the most rows of a batch, 1 to 8, `refactor` the most pivots that a factor of the basis is kept for, 0 to
    64, and `limit` how many pivots are allowed, 0 to 1000000; the program has 4, 16 and 100000 for None. With `ranging`
    an optimal answer also says how far each cost and each bound may be moved. A run that ends at its limit or at a
    number that doesn't fit is a result too, and so is a model without a plan or without a best one: see
    `Result.status`, or call `Result.optimal`. All else is an error.
    """
    given = {"--batch": batch, "--refactor": refactor, "--limit": limit}
    words = [word for option, value in given.items() if value is not None for word in (option, str(value))]
    words += ["--ranging"] * ranging
    with _as_file(model, "model") as file:
        form = format or guess_format(model)
        status, text = _call(["solve", "--format", form, *words, "--", file.path], program, timeout)
        if status not in ANSWERS:
            raise _error(status, text, f"{words}: {OF_SOLVE}", [file])
        try:
            read = read_model(Path(file.path), form)
        except ModelFault as error:
            raise PamiError(
                f"the program reads {file.shown}, and this package doesn't: {error}. Please report it."
            ) from error
        return read_result(text, read, ranging=ranging)


def trial(
    seed: int, rows: int, columns: int, *, program: Source | None = None, timeout: float | None = None
) -> Trial:
    """Has the program draw a transport model by a seed and solve it. The model has `rows` sources and `columns` sinks,
    each 1 to 64, and a column for each way between them. The seed is 0 to 4294967295.
    """
    words = [str(seed), str(rows), str(columns)]
    status, text = _call(["trial", "--", *words], program, timeout)
    if status not in ANSWERS:
        raise _error(status, text, f"{words}: {OF_TRIAL}", [])
    return read_trial(text)


def check(
    model: Source,
    certificate: Source | Result,
    *,
    format: Format | None = None,
    program: Source | None = None,
    timeout: float | None = None,
) -> Verdict:
    """Has the program judge a certificate: a result, the name of a file, or a text."""
    told = certificate.text if isinstance(certificate, Result) else certificate
    with _as_file(model, "model") as file, _as_file(told, "certificate") as other:
        form = format or guess_format(model)
        status, text = _call(["check", "--format", form, "--", file.path, other.path], program, timeout)
        if status not in VERDICTS:
            raise _error(status, text, "of `check`: names are UTF-8 texts", [file, other])
        return _verdict(text)


@contextmanager
def _as_file(source: Source, name: str) -> Iterator[_File]:
    """A source as a file; a text is put into a file of its own, which is removed at the end."""
    if not is_text(source):
        path = os.fspath(source)
        if not os.path.exists(path):
            raise MissingFile(path, HINT)
        yield _File(path, path)
        return
    with tempfile.TemporaryDirectory() as folder:
        path = os.path.join(folder, name)
        Path(path).write_bytes(os.fspath(source).encode(ENCODING, ERRORS))
        yield _File(path, f"the text of the {name}")


def _call(words: list[str], program: Source | None, timeout: float | None) -> tuple[int, str]:
    """Status and text of a run. Standard error goes where this process's own goes: only a build writes there."""
    path = find_program(program)
    try:
        ran = subprocess.run(
            [path, *words], stdin=subprocess.DEVNULL, stdout=subprocess.PIPE, timeout=timeout, check=False
        )
    except subprocess.TimeoutExpired:
        raise TookTooLong(
            f"{path} was stopped after {timeout} seconds. A `limit` of pivots ends a run with an answer."
        ) from None
    except OSError as error:
        raise ProgramMissing(f"{path} can't be run: {error.strerror}") from None
    if ran.returncode == NOT_BUILT:
        raise ProgramMissing(f"{path} couldn't build the program; what it wrote to standard error says why")
    return ran.returncode, ran.stdout.decode(ENCODING, ERRORS)


def _error(status: int, text: str, words: str, files: list[_File]) -> PamiError:
    """The error of a status that is no answer. `words` are those of the call, with what is asked of them."""
    if status == 2 and text == "bad words\n":
        return BadWords(f"the program doesn't take the words {words}")
    found = REFUSED.match(text)
    if status == 3 and found is not None and files:
        return _refusal(files[0], int(found[1]), found[2], found[3] or "")
    if status == 4 and text == "read fault\n":
        return _read_fault(files)
    if status == 5:
        return WriteFault("the program couldn't write its answer")
    if status == 6 and not text:
        return OutOfMemory("memory ran out in the program. Give it more, or a smaller model.")
    if status in ANSWERS and not text.endswith("\n"):
        return TextCut("the program's text ends within a line")
    return OtherProgram(f"the program ended with status {status} and {text[:80]!r}, which this package doesn't know")


def _refusal(file: _File, line: int, kind: str, variable: str) -> Refused:
    lines = read_text(Path(file.path)).split("\n")
    source = lines[line - 1] if 0 < line <= len(lines) else variable
    return (IntegerModel if kind == "integer" else Refused)(file.shown, line, kind, source)


def _read_fault(files: list[_File]) -> ReadFault:
    """Which of the files can't be read, by reading each here."""
    for file in files:
        try:
            Path(file.path).read_bytes()
        except FileNotFoundError:
            return MissingFile(file.shown, "there is no such file")
        except OSError as error:
            return ReadFault(file.shown, error.strerror or str(error))
    return ReadFault(
        " or ".join(file.shown for file in files), "reading failed in the program, and can be done now. Try again."
    )


def _verdict(text: str) -> Verdict:
    words = text.removesuffix("\n").split(" ")
    match words:
        case ["valid"]:
            return Verdict("valid")
        case ["invalid", condition, variable]:
            return Verdict("invalid", condition, variable)
        case ["unchecked", condition, variable, op, left, right]:
            return Verdict("unchecked", condition, variable, op, number(left), number(right))
        case ["malformed", line, fault] if line.isdecimal():
            return Verdict("malformed", line=int(line), fault=fault)
    raise OtherProgram(f"the program wrote {text[:80]!r}, which is no verdict. Is it another version?")
