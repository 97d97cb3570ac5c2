#!/usr/bin/env python3
"""Checks the ranges that a program tells: moves costs and bounds to their ends and past them, and asks what becomes of the basis.

check_ranging.py PROGRAM --seed S --ends N [--jobs J]. PROGRAM is a command, behind which the words `solve FILE --limit K --ranging`
are put. Models of draw_models.py are taken in their order, every other one turned into a maximum, until N ends were solved again. Each end of each range is judged in
two ways, and neither asks how it was found:

1. In fractions, over the model as the Python package reads it, with the basis of the last line: at the end the basis with its
   stands goes on to be dual feasible (a cost) or to have its values within their bounds (a bound), and not the least bit past
   it; where there is no end, it does so however far the number is moved. The number of the model lies between both ends. Where
   the model is so small that each number on the way fits, no end is `wide`.
2. Of some ends of each model, by the program: the model with the moved number is solved anew. At the end it has an optimal
   answer with the objective that the old basis has there. Past it, by 1/1000 of the end, or of 1 where that is 0, it ends at another
   basis; its objective may be the same, as answers may be degenerate. Where there is no end, the number is moved far.

A moved number needn't be a decimal. So all costs are multiplied by one number, or all bounds: that changes neither which bases are
optimal nor who stands where. Where a bound would pass the variable's other bound, that one is left out, as a range doesn't look at it;
both bounds of a fixed variable are moved together. Each wrong end is printed, the first few with their model; then what was judged.
Ends with 1 where something is wrong; of much that is, with what was found so far.
"""
import argparse
import collections
import concurrent.futures
import copy
import functools
import itertools
import math
import os
import random
import re
import sys
import tempfile
from fractions import Fraction

# No folder of compiled files is left beside this one.
sys.dont_write_bytecode = True
import draw_models  # noqa: E402
from compare_answers import IN_FULL, answer, command_of  # noqa: E402

sys.path.insert(0, os.path.join(os.path.dirname(os.path.dirname(os.path.realpath(__file__))), "python", "src"))
import pami  # noqa: E402

# So many ends of a model are solved again, so many times what it is now is far, and so many wrong ones are enough.
AGAIN, FAR, ENOUGH = 4, 10**6, 50
# Further than any end, and nearer to an end than any other number that matters.
ENDLESS, LEAST = Fraction(10) ** 2000, Fraction(1, 10**400)
# A number on the way has at most twice as many binary digits as this, where determinants have at most this many.
SAFE = 50
INFINITE = Fraction(10) ** 20


class Basis:
    """The last basis of an answer, solved afresh in fractions. Variables are numbered: columns first, then rows."""

    def __init__(self, model, letters):
        self.columns = [dict(entries) for entries in model.entries]
        self.columns += [{row: Fraction(-1)} for row in range(len(model.rows))]
        self.letters = letters
        self.lows, self.highs = model.low + model.row_low, model.high + model.row_high
        self.costs = model.minimised_costs() + [Fraction(0)] * len(model.rows)
        self.head = [at for at, letter in enumerate(letters) if letter == "B"]
        self.inverse = inverse_of([self.columns[at] for at in self.head], len(model.rows))

    def standing(self, variable):
        """The value of a variable that isn't in the basis."""
        value = {"L": self.lows, "U": self.highs}.get(self.letters[variable], {variable: Fraction(0)})[variable]
        if value is None:
            raise ValueError(f"variable {variable} stands at a bound that isn't there")
        return value

    def is_fixed(self, variable):
        return self.lows[variable] is not None and self.lows[variable] == self.highs[variable]

    def is_dual_feasible(self, costs):
        """Whether each reduced cost has the sign that its stand asks for."""
        duals = [sum(costs[at] * row[i] for at, row in zip(self.head, self.inverse)) for i in range(len(self.inverse))]
        for variable, letter in enumerate(self.letters):
            if letter == "B" or self.is_fixed(variable):
                continue
            reduced = costs[variable] - sum(duals[row] * entry for row, entry in self.columns[variable].items())
            if (letter == "L" and reduced < 0) or (letter == "U" and reduced > 0) or (letter == "Z" and reduced != 0):
                return False
        return True

    def values(self, moved):
        """The value of each variable, where the others stand at their bounds, or where `moved` says."""
        values = [moved.get(at, self.standing(at)) if it != "B" else None for at, it in enumerate(self.letters)]
        right = [Fraction(0)] * len(self.inverse)
        for variable, value in enumerate(values):
            if value:
                for row, entry in self.columns[variable].items():
                    right[row] -= entry * value
        for at, row in zip(self.head, self.inverse):
            values[at] = sum((entry * it for entry, it in zip(row, right) if it), Fraction(0))
        return values

    def is_primal_feasible(self, moved):
        """Whether all that is in the basis is within its bounds."""
        values = self.values(moved)
        return all(
            (self.lows[at] is None or self.lows[at] <= values[at])
            and (self.highs[at] is None or values[at] <= self.highs[at])
            for at in self.head
        )


def inverse_of(columns, size):
    """The inverse of a matrix by its columns, row by row."""
    rows = [[column.get(row, Fraction(0)) for column in columns] for row in range(size)]
    rows = [row + [Fraction(int(at == other)) for other in range(size)] for at, row in enumerate(rows)]
    if len(columns) != size:
        raise ValueError(f"the basis has {len(columns)} variables for {size} rows")
    for at in range(size):
        pivot = next((row for row in range(at, size) if rows[row][at]), None)
        if pivot is None:
            raise ValueError("the basis isn't regular")
        rows[at], rows[pivot] = rows[pivot], rows[at]
        rows[at] = [entry / rows[at][at] for entry in rows[at]]
        for row in range(size):
            factor = rows[row][at]
            if row != at and factor:
                rows[row] = [entry - factor * other for entry, other in zip(rows[row], rows[at])]
    return [row[size:] for row in rows]


class Moved:
    """A cost, or the bound at which a variable stands, with its range."""

    def __init__(self, kind, variable, name, now, told):
        self.kind, self.variable, self.name, self.now, self.told = kind, variable, name, now, told

    def stays(self, basis, sign, value):
        """Whether the basis stays, with this value, dual feasible or within its bounds. Costs are those of the file."""
        if self.kind == "bound":
            return basis.is_primal_feasible({self.variable: value})
        costs = list(basis.costs)
        costs[self.variable] = sign * value
        return basis.is_dual_feasible(costs)

    def model_at(self, model, basis, value):
        """The model with this value, and the number by which all costs or all bounds of it are multiplied."""
        made = copy.deepcopy(model)
        made.constant = Fraction(0)
        if self.kind == "cost":
            made.costs[self.variable] = value
            return made, scaled(made, ["costs"])
        columns = len(model.columns)
        lows, highs, at = made.low, made.high, self.variable
        if at >= columns:
            lows, highs, at = made.row_low, made.row_high, at - columns
        is_low = basis.letters[self.variable] == "L"
        own, other = (lows, highs) if is_low else (highs, lows)
        if basis.is_fixed(self.variable):
            other[at] = value
        elif other[at] is not None and (other[at] < value if is_low else value < other[at]):
            other[at] = None
        own[at] = value
        return made, scaled(made, ["low", "high", "row_low", "row_high"])


def scaled(model, names):
    """Makes all numbers of these lists whole, and answers by what they were multiplied."""
    lists = [getattr(model, name) for name in names]
    factor = math.lcm(*(it.denominator for numbers in lists for it in numbers if it is not None))
    for name, numbers in zip(names, lists):
        setattr(model, name, [None if it is None else it * factor for it in numbers])
    return factor


# ---- the text of a moved model

def shown(value):
    """A decimal: the numbers of a model that was read are all decimals."""
    if value.denominator == 1:
        return str(value.numerator)
    digits = next(it for it in range(1, 400) if 10**it % value.denominator == 0)
    return f"{int(value * 10**digits)}e-{digits}"


def mps(model):
    """The model as an MPS file, with columns and rows by number."""
    lines = ["NAME", f"OBJSENSE {model.sense.upper()}", "ROWS", " N cost"]
    sides, ranges, bounds = [], [], []
    for row, (low, high) in enumerate(zip(model.row_low, model.row_high)):
        kind, side = ("G", low) if low is not None else ("L", high)
        lines.append(f" {'E' if low is not None and low == high else kind} r{row}")
        sides.append(f" rhs r{row} {'inf' if side is None else shown(side)}")
        if None not in (low, high) and low != high:
            ranges.append(f" rng r{row} {shown(high - low)}")
    lines.append("COLUMNS")
    for column, entries in enumerate(model.entries):
        lines.append(f" x{column} cost {shown(model.costs[column])}")
        lines += [f" x{column} r{row} {shown(entry)}" for row, entry in sorted(entries.items())]
        low, high = model.low[column], model.high[column]
        bounds.append(f" MI bnd x{column}" if low is None else f" LO bnd x{column} {shown(low)}")
        bounds.append(f" PL bnd x{column}" if high is None else f" UP bnd x{column} {shown(high)}")
    return "\n".join([*lines, "RHS", *sides, "RANGES", *ranges, "BOUNDS", *bounds, "ENDATA", ""])


def turned(text):
    """The same model as a maximum, or as a minimum where it is one, without its constant."""
    model = pami.read_model(text, "mps")
    model.sense = {"min": "max", "max": "min"}[model.sense]
    model.costs = [-cost for cost in model.costs]
    return mps(model)


def is_writable(model):
    """Whether no bound would be read as infinite."""
    sides = model.low + model.high + model.row_low + model.row_high
    return all(abs(it) < INFINITE for it in sides if it is not None)


# ---- the two judgements

class Case:
    """A model with its last basis, and the program that is to solve it again with a moved number."""

    def __init__(self, command, folder, model, basis):
        self.command, self.folder, self.model, self.basis = command, folder, model, basis
        self.sign = 1 if model.sense == "min" else -1
        self.has_room = has_room(model)

    def moves(self, result):
        """All costs, and all bounds at which something stands, with their ranges."""
        costs = zip(self.model.columns, self.model.costs, result.cost_ranges.values(), strict=True)
        moves = [Moved("cost", at, name, now, told) for at, (name, now, told) in enumerate(costs)]
        names = list(result.variables)
        for name, told in result.bound_ranges.items():
            at = names.index(name)
            moves.append(Moved("bound", at, name, self.basis.standing(at), told))
        return moves

    def wrong_end(self, move, end, direction):
        """What is wrong with an end, as fractions have it, or nothing."""
        stays = functools.partial(move.stays, self.basis, self.sign)
        if end == "wide":
            return "it is wide, and each number of so small a model fits" if self.has_room else ""
        if end is None:
            return "" if stays(move.now + direction * ENDLESS) else "there is an end, and none is told"
        if (move.now - end) * direction > 0:
            return f"the model has {move.now}, which is past it"
        if not stays(end):
            return "the basis doesn't stay there"
        return "the basis stays past it" if stays(end + direction * LEAST) or stays(past(end, direction)) else ""

    def again(self, move, end, direction):
        """What the program makes of the model at an end and past it, or far out: what is wrong or nothing, and a count."""
        if end is None:
            yield self.solve(move, move.now + direction * FAR * (abs(move.now) or 1), "far out where there is no end")
            return
        yield self.solve(move, end, "at an end, and optimal with the same basis's objective")
        yield self.solve(move, past(end, direction), None)

    def solve(self, move, value, stays):
        """What is wrong with the program's answer to the moved model, or nothing, and as what that is counted: as `stays`
        where the basis stays.
        """
        made, factor = move.model_at(self.model, self.basis, value)
        if not is_writable(made):
            return "", "left out, as a bound would be read as infinite"
        with open(os.path.join(self.folder, "moved.mps"), "w", encoding="ascii") as file:
            file.write(mps(made))
        status, text, _ = answer(
            self.command, ["solve", "moved.mps", "--limit", str(draw_models.ENOUGH)], self.folder
        )
        if status in (12, 13) or status == 3 and re.match(r"refused \d+ (wide|width \S+)\n\Z", text):
            return "", "left out, as the moved model is too wide or has no end of pivots"
        if status != 0:
            is_due = stays is None and status == {"bound": 10, "cost": 11}[move.kind]
            return "" if is_due else f"it ends with status {status}", "past an end, with no optimal answer"
        told = pami.read_result(text)
        if stays is None:
            is_same = told.basis.columns + told.basis.rows == self.basis.letters
            return "the program ends at the same basis" if is_same else "", "past an end, at another basis"
        found = made.objective([column.value for column in told.columns])
        due = factor * self.objective(move, value)
        return "" if found == due else f"the objective is {found}, in place of {due}", stays

    def objective(self, move, value):
        """The objective of the old basis with a moved number, without the constant."""
        values = self.basis.values({move.variable: value} if move.kind == "bound" else {})
        costs = list(self.model.costs)
        if move.kind == "cost":
            costs[move.variable] = value
        return sum((cost * it for cost, it in zip(costs, values)), Fraction(0))


def past(end, direction):
    return end + direction * (abs(end) or Fraction(1)) / 1000


def has_room(model):
    """Whether determinants of the model's numbers have at most SAFE binary digits, by Hadamard's bound."""
    numbers = itertools.chain(
        model.costs, model.low, model.high, model.row_low, model.row_high, *(it.values() for it in model.entries)
    )
    told = [it for it in numbers if it is not None]
    order = len(model.rows) + 2
    digits = max((abs(it.numerator).bit_length() for it in told), default=0)
    return all(it.denominator == 1 for it in told) and order * (digits + order.bit_length() / 2) <= SAFE


def what(move, end, basis):
    """As what an end is counted."""
    letter = basis.letters[move.variable]
    of = {"B": "costs in the basis", "Z": "costs of free columns at 0"}.get(letter, "costs at a bound")
    if move.kind == "bound":
        of = "bounds of columns" if move.name.startswith("x:") else "bounds of rows"
    kind = "infinite" if end is None else "wide" if end == "wide" else "finite"
    return f"{kind} ends of {of}"


class Found:
    """What was counted of a model, what is wrong, and how many of its ends were solved again."""

    def __init__(self, text):
        self.text, self.counts, self.wrong, self.again = text, collections.Counter(), [], 0

    def judge(self, case, result, draw):
        """Judges all ends in fractions, and some of those that are right by the program."""
        self.counts.update(["models judged"] + ["models judged that are maxima"] * (case.sign < 0))
        ends = []
        for move in case.moves(result):
            for end, direction in ((move.told.low, -1), (move.told.high, 1)):
                self.counts[what(move, end, case.basis)] += 1
                why = case.wrong_end(move, end, direction)
                if why:
                    self.note(move, direction, why)
                elif end != "wide":
                    ends.append((move, end, direction))
        for move, end, direction in draw.sample(ends, min(AGAIN, len(ends))):
            self.again += 1
            for why, count in case.again(move, end, direction):
                if why:
                    self.note(move, direction, f"solved again, {why}")
                else:
                    self.counts[count] += 1

    def note(self, move, direction, why):
        side = "high" if direction > 0 else "low"
        self.wrong.append(f"the {side} end of `range {move.kind} {move.name} {' '.join(move.told.ends())}`: {why}")


def judged(command, seed, number):
    """What is found of one model."""
    text, limit = draw_models.drawn(seed, number)
    text = turned(text) if number % 2 else text
    found = Found(text)
    with tempfile.TemporaryDirectory() as folder:
        with open(os.path.join(folder, "m.mps"), "w", encoding="ascii", newline="") as file:
            file.write(text)
        status, told, _ = answer(command, ["solve", "m.mps", "--limit", str(limit), "--ranging"], folder)
        if status in (3, 10, 11, 12, 13):
            found.counts["models without an optimal answer"] += 1
            return found
        try:
            model = pami.read_model(text, "mps")
            result = pami.read_result(told, model, ranging=True)
            basis = Basis(model, result.basis.columns + result.basis.rows)
        except (pami.PamiError, ValueError) as error:
            found.wrong.append(f"status {status}: {error}")
            return found
        if not basis.is_dual_feasible(basis.costs) or not basis.is_primal_feasible({}):
            found.wrong.append("the last basis isn't optimal")
            return found
        found.judge(Case(command, folder, model, basis), result, random.Random(f"ends {seed} {number}"))
    return found


def main():
    parser = argparse.ArgumentParser(description=__doc__.split("\n")[0])
    parser.add_argument("program")
    parser.add_argument("--seed", type=int, default=1)
    parser.add_argument("--ends", type=int, default=500)
    parser.add_argument("--jobs", type=int, default=1)
    given = parser.parse_args()
    judge = functools.partial(judged, command_of(given.program), given.seed)
    counts, wrong, again = collections.Counter(), 0, 0
    with concurrent.futures.ProcessPoolExecutor(given.jobs) as pool:
        for first in itertools.count(0, 4 * given.jobs):
            if again >= given.ends or wrong >= ENOUGH:
                break
            numbers = range(first, first + 4 * given.jobs)
            for number, found in zip(numbers, pool.map(judge, numbers)):
                counts.update(found.counts)
                again += found.again
                for why in found.wrong:
                    wrong += 1
                    print(f"wrong in model {number}: {why}")
                    if wrong <= IN_FULL:
                        print(f"--- the model\n{found.text}---")
    for kind, times in sorted(counts.items()):
        print(f"{times:6} {kind}")
    ends = sum(times for kind, times in counts.items() if " ends of " in kind)
    print(f"{ends} ends judged in fractions, {again} solved again, of {counts['models judged']} models; {wrong} wrong")
    return int(wrong > 0)


if __name__ == "__main__":
    sys.exit(main())
