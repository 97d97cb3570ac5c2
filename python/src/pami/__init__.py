"""Exact linear programming from Python.

`solve` calls the program pami on a model and reads its answer; `check` has the program judge a certificate; `verify`
judges one here, with unbounded fractions and readers of its own; `sweep` solves many models; `trial` has the program
draw one and solve it; `plot` draws a run, and `report` makes a page of an answer. All numbers are
`fractions.Fraction`. Errors are `PamiError`, each with its own name.
"""

from .answer import (
    Basis,
    Column,
    Conflict,
    Drop,
    Event,
    Explanation,
    Flip,
    Major,
    NoneEnters,
    Phase,
    Pivot,
    Result,
    Rollback,
    Row,
    Status,
    read_result,
)
from .decimals import decimal
from .errors import (
    BadWords,
    DualInfeasible,
    Infeasible,
    IntegerModel,
    LimitReached,
    MissingFile,
    ModelFault,
    NotOptimal,
    OtherModel,
    OtherProgram,
    OtherRun,
    OtherSolver,
    OutOfMemory,
    Overflow,
    PackageMissing,
    PamiError,
    ProgramMissing,
    ReadFault,
    Refused,
    TextCut,
    TextFault,
    TookTooLong,
    UnknownPicture,
    WriteFault,
)
from .model import Model
from .page import report
from .picture import plot
from .program import check, find_program, solve, trial
from .ranges import End, Range
from .replay import Mark, Point, Round, Trace, trace
from .scenarios import Scenario, sweep
from .source import read_model
from .summary import Trial, read_trial
from .verdict import Verdict

__all__ = [
    "BadWords",
    "Basis",
    "Column",
    "Conflict",
    "Drop",
    "DualInfeasible",
    "End",
    "Event",
    "Explanation",
    "Flip",
    "Infeasible",
    "IntegerModel",
    "LimitReached",
    "Major",
    "Mark",
    "MissingFile",
    "Model",
    "ModelFault",
    "NoneEnters",
    "NotOptimal",
    "OtherModel",
    "OtherProgram",
    "OtherRun",
    "OtherSolver",
    "OutOfMemory",
    "Overflow",
    "PackageMissing",
    "PamiError",
    "Phase",
    "Pivot",
    "Point",
    "ProgramMissing",
    "Range",
    "ReadFault",
    "Refused",
    "Result",
    "Rollback",
    "Round",
    "Row",
    "Scenario",
    "Status",
    "TextCut",
    "TextFault",
    "TookTooLong",
    "Trace",
    "Trial",
    "UnknownPicture",
    "Verdict",
    "WriteFault",
    "check",
    "decimal",
    "find_program",
    "plot",
    "read_model",
    "read_result",
    "read_trial",
    "report",
    "solve",
    "sweep",
    "trace",
    "trial",
]
