"""What can go wrong, each with a name and with what to do about it. All are `PamiError`."""

from __future__ import annotations

from fractions import Fraction


class PamiError(Exception):
    """Every error of this package. Its text says what happened and what to do."""

    def __reduce__(self) -> tuple[object, ...]:
        # An error goes between processes by its text and its fields, whatever its kind is made from.
        return _error_of, (type(self), str(self), vars(self))


def _error_of(kind: type[PamiError], text: str, fields: dict[str, object]) -> PamiError:
    error = kind.__new__(kind)
    error.args = (text,)
    vars(error).update(fields)
    return error


class ProgramMissing(PamiError):
    """There is no program to call, or it can't be run or built."""


class OtherProgram(PamiError):
    """What was called isn't a pami that writes format 1 of the texts."""


class OtherSolver(PamiError):
    """Another solver, whose answer was to be certified, has none."""


class TookTooLong(PamiError):
    """The program didn't end within `timeout` seconds, and was stopped."""


class BadWords(PamiError):
    """Status 2: the program doesn't know the words of the call."""


class Refused(PamiError):
    """Status 3: the model isn't read as it stands. `line` counts from 1, and is 0 where no line is to blame; `kind` is
    that of docs/FORMATS.md; `source` is the text of the line.
    """

    def __init__(self, file: str, line: int, kind: str, source: str, more: str = "") -> None:
        where = f"{file}, line {line}" if line else file
        shown = f": {source.strip()!r}" if source.strip() else ""
        super().__init__(
            f"{where} is refused as {kind}{shown}. {more or REMEDIES.get(kind, 'See the kinds in docs/FORMATS.md.')}"
        )
        self.file, self.line, self.kind, self.source = file, line, kind, source


class IntegerModel(Refused):
    """Status 3 with the kind `integer`: the model has whole or semi-continuous columns, which aren't solved here."""


class ReadFault(PamiError):
    """Status 4: a file couldn't be read. `file` is the one, as far as that can be found out."""

    def __init__(self, file: str, why: str) -> None:
        super().__init__(f"{file} can't be read: {why}")
        self.file = file


class MissingFile(ReadFault, FileNotFoundError):
    """There is no such file."""


class WriteFault(PamiError):
    """Status 5: the program couldn't write its answer whole."""


class OutOfMemory(PamiError):
    """Status 6: memory ran out in the program."""


class TextCut(PamiError):
    """A text that should be an answer ends before its last line."""


class TextFault(PamiError):
    """A text that should be an answer has a line that no answer has. `line` counts from 1."""

    def __init__(self, line: int, source: str) -> None:
        super().__init__(
            f"line {line} of the text is none of an answer: {source!r}. Was the file changed, or is it another one?"
        )
        self.line, self.source = line, source


class OtherModel(PamiError):
    """A text that should be the answer to a model has other names or sizes."""

    def __init__(self) -> None:
        super().__init__(
            "the text isn't the answer to this model, as it has other rows, columns or entries. Solve again."
        )


class OtherRun(OtherModel):
    """The pivots of a text aren't steps on this model, though the names are those of the model. `pivots` says how many
    were replayed.
    """

    def __init__(self, pivots: int, why: str) -> None:
        PamiError.__init__(
            self,
            f"behind {pivots} pivots of the text {why}. So it isn't of a run on this model as it stands. Solve again.",
        )
        self.pivots = pivots


class PackageMissing(PamiError):
    """A package of others that pictures or pages need isn't there."""


class UnknownPicture(PamiError):
    """A picture is asked for in a format that isn't made here."""


class ModelFault(PamiError):
    """This package's own reader doesn't understand a model. `line` counts from 1."""

    def __init__(self, line: int, why: str) -> None:
        super().__init__(f"line {line} of the model: {why}")
        self.line = line


class NotOptimal(PamiError):
    """`Result.optimal` was asked of a result that isn't."""


class Infeasible(NotOptimal):
    """Status 10: no plan keeps all rows and bounds. `Result.explain_infeasible` says which contradict each other."""

    def __init__(self) -> None:
        super().__init__("no plan keeps all rows and bounds; explain_infeasible says which contradict each other")


class DualInfeasible(NotOptimal):
    """Status 11: the objective gets better without end along `Result.direction`."""

    def __init__(self) -> None:
        super().__init__(
            "the objective gets better without end along the direction: a bound, a row or a sign is missing"
        )


class LimitReached(NotOptimal):
    """Status 12: as many pivots as were allowed were made. `limit` says how many."""

    def __init__(self, limit: int) -> None:
        super().__init__(f"the limit of {limit} pivots was reached. Call solve with a larger limit, up to 1000000.")
        self.limit = limit


class Overflow(NotOptimal):
    """Status 13: the operation `op` on `left` and `right`, at `place`, needs more than 127 binary digits."""

    def __init__(self, place: str, op: str, left: Fraction, right: Fraction) -> None:
        super().__init__(
            f"a number doesn't fit into 128 bits: {op} of {left} and {right} at {place}. "
            "Numbers with fewer digits help; see docs/ANSWERS.md."
        )
        self.place, self.op, self.left, self.right = place, op, left, right


# What to write instead, by the kind of a refusal, where a few words say it.
REMEDIES = {
    "byte": "A control byte, a byte order mark, a packed file, or in LP a bracket, '*' or '^'.",
    "section": "Section words are in capitals, data lines begin with a blank. If it is an LP file, say format='lp'.",
    "syntax": "An LP row is a sum of columns, a relation and one number. If it is an MPS file, say format='mps'.",
    "order": "Sections stand in their order, each once. In LP no column named as a section begins a line.",
    "words": "Names have no blanks, and each has its value behind it.",
    "integer": "Whole and semi-continuous columns aren't solved; without these words the file is the relaxed model.",
    "number": "Numbers are decimals with a point: 1.5, not 1,5 or 3/2.",
    "wide": "Use fewer digits.",
    "width": "The two bounds of a column are too far apart for 128 bits.",
    "end-missing": "The file ends early; was it cut off?",
    "crossed": "A lower bound is above the upper one.",
}
