"""A small reader of the LP profile of docs/FORMATS.md, in unbounded fractions. It shares no code with the program.

It reads each file that the program reads as the same model. Of other files it refuses what it doesn't understand, with
the line, but it isn't as strict as the program.
"""

from __future__ import annotations

import re
from dataclasses import dataclass
from fractions import Fraction

from .errors import ModelFault
from .model import Model, Sense, Side, read_number, read_side, set_upper

MARKS = r"!\"#$%&(),;?@_'`{}~|/"
TOKEN = re.compile(
    r"(?P<number>(?:[0-9]+\.?[0-9]*|\.[0-9]+)(?:[eE][+-]?[0-9]+)?)"
    rf"|(?P<name>[A-Za-z{MARKS}][A-Za-z0-9.{MARKS}]*)"
    r"|(?P<relation><=|=<|<|>=|=>|>|=)|(?P<mark>[-+:])"
)
RELATIONS = {"<": "<", "<=": "<", "=<": "<", ">": ">", ">=": ">", "=>": ">", "=": "="}
TURNED = {"<": ">", ">": "<", "=": "="}
SENSES: dict[str, Sense] = {
    **dict.fromkeys(("min", "minimum", "minimize", "minimise"), "min"),
    **dict.fromkeys(("max", "maximum", "maximize", "maximise"), "max"),
}
ROWS, BOUNDS, END = {"st", "s.t.", "st."}, {"bound", "bounds"}, {"end"}
# Words of rows that have a second word.
FIRST = {"subject": "to", "such": "that"}
WHOLE = {
    "general",
    "generals",
    "gen",
    "integer",
    "integers",
    "int",
    "binary",
    "binaries",
    "bin",
    "semi",
    "semis",
    "sos",
    "sos1",
    "sos2",
}
UNBOUND, INFINITE = {"free"}, {"inf", "infinity"}


@dataclass
class Token:
    kind: str
    text: str
    line: int
    begins: bool  # the first one of its line

    @property
    def word(self) -> str:
        return self.text.lower() if self.kind == "name" else ""


def tokens_of(text: str) -> list[Token]:
    tokens: list[Token] = []
    for number, line in enumerate(text.split("\n"), 1):
        line, at, begins = line.removesuffix("\r").split("\\", 1)[0], 0, True
        while at < len(line):
            if line[at] in " \t":
                at += 1
                continue
            found = TOKEN.match(line, at)
            if found is None:
                # It is a fault only where it is read, which is in front of the end.
                return [*tokens, Token("fault", line[at:], number, begins)]
            tokens.append(Token(str(found.lastgroup), found.group(), number, begins))
            at, begins = found.end(), False
    tokens.append(Token("end of file", "", text.count("\n") + 1, True))
    return tokens


def read_lp(text: str) -> Model:
    """The model that a text in LP describes."""
    return Reader(tokens_of(text)).read()


class Reader:
    def __init__(self, tokens: list[Token]) -> None:
        self.tokens = tokens
        self.at = 0
        self.model = Model()
        self.columns: dict[str, int] = {}
        self.rows: set[str] = set()
        self.has_lower: set[int] = set()

    # ---- tokens

    @property
    def next(self) -> Token:
        return self.tokens[self.at]

    def behind(self, count: int = 1) -> Token:
        return self.tokens[min(self.at + count, len(self.tokens) - 1)]

    def take(self) -> Token:
        token = self.next
        self.at += 1
        return token

    def fault(self, why: str) -> ModelFault:
        return ModelFault(self.next.line, f"{why}, and {self.next.text or 'nothing'!r} is there")

    def section(self) -> str:
        """Which section the next token begins, or '' where it begins none."""
        token = self.next
        if token.kind == "end of file":
            return "end of file"
        if not token.begins or token.kind != "name" or self.behind().text == ":":
            return ""
        if token.word in FIRST:
            return "rows" if self.behind().word == FIRST[token.word] else ""
        for name, words in (("objective", SENSES), ("rows", ROWS), ("bounds", BOUNDS), ("end", END), ("whole", WHOLE)):
            if token.word in words:
                return name
        return ""

    def label(self) -> str | None:
        if self.next.kind == "name" and self.behind().text == ":":
            name = self.take().text
            self.take()
            return name
        return None

    def column(self) -> int:
        if self.next.kind != "name" or self.next.word in UNBOUND | INFINITE or self.section():
            raise self.fault("the name of a column is due")
        name = self.take().text
        if name not in self.columns:
            self.columns[name] = self.model.add_column(name)
        return self.columns[name]

    def signs(self) -> int:
        sign = 1
        while self.next.text in ("+", "-"):
            sign *= -1 if self.take().text == "-" else 1
        return sign

    def side(self) -> Side:
        """A number with its signs, or an infinite value."""
        sign = self.signs()
        if self.next.kind != "number" and self.next.word not in INFINITE:
            raise self.fault("a number is due")
        line = self.next.line
        side = read_side(self.take().text, line)
        return Side(None if side.value is None else sign * side.value, sign * side.sign if side.value != 0 else 1)

    def begins_side(self) -> bool:
        """Whether a number and a relation stand next, with signs or without."""
        at = self.at
        while self.tokens[at].text in ("+", "-"):
            at += 1
        is_number = self.tokens[at].kind == "number" or self.tokens[at].word in INFINITE
        return is_number and self.tokens[min(at + 1, len(self.tokens) - 1)].kind == "relation"

    def relation(self) -> str:
        if self.next.kind != "relation":
            raise self.fault("a relation is due")
        return RELATIONS[self.take().text]

    # ---- sections

    def read(self) -> Model:
        if self.section() != "objective":
            raise self.fault("the sense of the objective is due")
        self.model.sense = SENSES[self.take().word]
        self.label()
        self.read_objective()
        if self.section() != "rows":
            raise self.fault("the rows are due")
        self.at += 2 if self.next.word in FIRST else 1
        while not self.section():
            self.read_row()
        if self.section() == "bounds":
            self.take()
            while not self.section():
                self.read_bound()
        if self.section() != "end":
            raise self.fault("whole columns aren't taken" if self.section() == "whole" else "End is due")
        return self.model

    def term(self, is_first: bool) -> tuple[Fraction, int | None]:
        """A number and the column that it stands in front of, if there is one."""
        if not is_first and self.next.text not in ("+", "-"):
            raise self.fault("a sign is due between terms")
        value, has_number = Fraction(self.signs()), self.next.kind == "number"
        if has_number:
            value *= read_number(self.next.text, self.take().line)
        if has_number and (self.next.kind != "name" or self.section()):
            return value, None
        return value, self.column()

    def read_objective(self) -> None:
        is_first = True
        while not self.section():
            value, column = self.term(is_first)
            if column is None:
                self.model.constant += value
            else:
                self.model.costs[column] += value
            is_first = False

    def read_row(self) -> None:
        label = self.label()
        name = label if label is not None else f"R{len(self.model.rows) + 1}"
        if name in self.rows:
            raise self.fault(f"the row {name!r} stands twice")
        self.rows.add(name)
        sides: list[tuple[str, Side]] = []
        if self.begins_side():
            side = self.side()
            sides.append((TURNED[self.relation()], side))
        terms: dict[int, Fraction] = {}
        is_first = True
        while is_first or self.next.text in ("+", "-"):
            value, column = self.term(is_first)
            if column is None:
                raise self.fault("each number of a row has a column")
            terms[column] = terms.get(column, Fraction(0)) + value
            is_first = False
        if not sides or self.next.kind == "relation":
            relation = self.relation()
            if sides and ("=" in (relation, sides[0][0]) or relation == sides[0][0]):
                raise self.fault("the two relations of a row point one way")
            sides.append((relation, self.side()))
        row = self.model.add_row(name, None, None)
        for relation, side in sides:
            if relation != ">":
                self.model.row_high[row] = side.value
            if relation != "<":
                self.model.row_low[row] = side.value
        for column, value in terms.items():
            if value:
                self.model.entries[column][row] = value

    def read_bound(self) -> None:
        sides: list[tuple[str, Side]] = []
        if self.begins_side():
            side = self.side()
            sides.append((TURNED[self.relation()], side))
        column = self.column()
        if not sides and self.next.word in UNBOUND:
            self.take()
            self.model.low[column] = self.model.high[column] = None
            self.has_lower.add(column)
            return
        if not sides or self.next.kind == "relation":
            relation = self.relation()
            sides.append((relation, self.side()))
        for relation, side in sides:
            if relation != "<":
                self.model.low[column] = side.value
                self.has_lower.add(column)
            if relation == "<":
                set_upper(self.model, column, side, column in self.has_lower)
            elif relation == "=":
                self.model.high[column] = side.value
