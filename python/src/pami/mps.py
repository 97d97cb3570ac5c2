"""A small reader of the MPS profile of docs/FORMATS.md, in unbounded fractions. It shares no code with the program.

It reads each file that the program reads as the same model. Of other files it refuses what it doesn't understand, with
the line, but it isn't as strict as the program.
"""

from __future__ import annotations

import re
from collections.abc import Callable
from fractions import Fraction

from .errors import ModelFault
from .model import Model, Sense, Side, read_number, read_side, set_upper

SECTIONS = ["NAME", "OBJSENSE", "ROWS", "COLUMNS", "RHS", "RANGES", "BOUNDS", "ENDATA"]
SENSES: dict[str, Sense] = {"MIN": "min", "MINIMIZE": "min", "MAX": "max", "MAXIMIZE": "max"}
BLANKS = re.compile("[ \t]+")


def read_mps(text: str) -> Model:
    """The model that a text in MPS describes."""
    return Reader().read(text)


class Reader:
    """What was read so far. Rows are known by name: a number, or None for an N row."""

    def __init__(self) -> None:
        self.model = Model()
        self.line = 0
        self.rows: dict[str, int | None] = {}
        self.kinds: list[str] = []
        self.objective: str | None = None
        self.columns: dict[str, int] = {}
        self.sides: dict[int, Side] = {}
        self.ranges: dict[int, Side] = {}
        self.has_lower: set[int] = set()
        self.lines: dict[str, Callable[[list[str]], None]] = {
            "OBJSENSE": self.read_sense,
            "ROWS": self.read_row,
            "COLUMNS": self.read_entries,
            "RHS": self.read_sides,
            "RANGES": self.read_ranges,
            "BOUNDS": self.read_bound,
        }

    def fault(self, why: str) -> ModelFault:
        return ModelFault(self.line, why)

    def read(self, text: str) -> Model:
        section = ""
        for self.line, line in enumerate(text.split("\n"), 1):
            words = [word for word in BLANKS.split(line.removesuffix("\r")) if word]
            if not words or line.startswith("*"):
                continue
            if line[0] in " \t":
                if section not in self.lines:
                    raise self.fault("a data line outside of its section")
                self.lines[section](words)
                continue
            section = self.begun(section, words)
            if section == "ENDATA":
                return self.whole()
        raise self.fault("the file ends before ENDATA")

    def begun(self, before: str, words: list[str]) -> str:
        word = words[0]
        if word not in SECTIONS or (before and SECTIONS.index(word) <= SECTIONS.index(before)):
            raise self.fault(f"{word!r} isn't the word of a section that is due")
        if word == "OBJSENSE" and len(words) == 2:
            self.read_sense(words[1:])
        return word

    def read_sense(self, words: list[str]) -> None:
        if len(words) != 1 or words[0] not in SENSES:
            raise self.fault("a sense is due, as MAX")
        self.model.sense = SENSES[words[0]]

    def read_row(self, words: list[str]) -> None:
        if len(words) != 2 or words[0] not in ("N", "L", "G", "E"):
            raise self.fault("one of N, L, G and E is due, and a name")
        kind, name = words
        if name in self.rows:
            raise self.fault(f"the row {name!r} stands twice")
        if kind != "N":
            self.rows[name] = self.model.add_row(name, None, None)
            self.kinds.append(kind)
            return
        self.rows[name] = None
        self.objective = name if self.objective is None else self.objective

    def pairs(self, words: list[str], has_set: bool) -> list[tuple[str, str]]:
        """One or two names of rows with their values; behind the name of a set, where one may stand."""
        words = words[1:] if has_set and len(words) % 2 else words
        if len(words) not in (2, 4):
            raise self.fault("one or two names are due, each with a value")
        for name in words[::2]:
            if name not in self.rows:
                raise self.fault(f"there is no row {name!r}")
        return list(zip(words[::2], words[1::2], strict=True))

    def read_entries(self, words: list[str]) -> None:
        name, pairs = words[0], self.pairs(words[1:], has_set=False) if words[1:2] != ["'MARKER'"] else []
        if not pairs:
            raise self.fault("whole columns aren't taken")
        if name not in self.columns:
            self.columns[name] = self.model.add_column(name)
        column = self.columns[name]
        if column != len(self.model.columns) - 1:
            raise self.fault(f"the lines of {name!r} don't stand together")
        for row_name, word in pairs:
            row, value = self.rows[row_name], read_number(word, self.line)
            if row_name == self.objective:
                self.model.costs[column] = value
            elif row is not None and row in self.model.entries[column]:
                raise self.fault(f"{row_name!r} stands twice in {name!r}")
            elif row is not None and value:
                self.model.entries[column][row] = value

    def read_sides(self, words: list[str]) -> None:
        for name, word in self.pairs(words, has_set=True):
            row = self.rows[name]
            if name == self.objective:
                self.model.constant = -read_number(word, self.line)
            elif row is not None:
                self.sides[row] = read_side(word, self.line)

    def read_ranges(self, words: list[str]) -> None:
        for name, word in self.pairs(words, has_set=True):
            row = self.rows[name]
            if row is None:
                raise self.fault(f"{name!r} is an N row and has no range")
            self.ranges[row] = read_side(word, self.line)

    def read_bound(self, words: list[str]) -> None:
        kind, names = words[0], words[1:]
        if kind in ("UP", "LO", "FX"):
            due = names[-2:] if len(names) in (2, 3) else []
        elif kind in ("FR", "MI", "PL"):
            # One name is the column, two are a set and the column, and a third word isn't read.
            due = names[:1] if len(names) == 1 else names[1:2] if len(names) in (2, 3) else []
        else:
            raise self.fault(f"{kind!r} is no type of bound of continuous columns")
        if not due or due[0] not in self.columns:
            raise self.fault("the name of a column is due")
        column = self.columns[due[0]]
        side = read_side(due[1], self.line) if len(due) == 2 else Side(None, 1)
        if kind == "UP":
            set_upper(self.model, column, side, column in self.has_lower)
        if kind in ("LO", "FX", "FR", "MI"):
            self.model.low[column] = side.value
            self.has_lower.add(column)
        if kind in ("FX", "FR", "PL"):
            self.model.high[column] = side.value

    def whole(self) -> Model:
        """The model, now that all kinds, right-hand sides and ranges of its rows are known."""
        for row, kind in enumerate(self.kinds):
            side, span = self.sides.get(row, Side(Fraction(0), 1)), self.ranges.get(row)
            low, high = (side.value if kind in "GE" else None), (side.value if kind in "LE" else None)
            if span is not None and side.value is not None:
                width = None if span.value is None else abs(span.value)
                if kind == "L" or (kind == "E" and span.sign < 0):
                    low = None if width is None else side.value - width
                else:
                    high = None if width is None else side.value + width
            self.model.row_low[row], self.model.row_high[row] = low, high
        return self.model
