#!/usr/bin/env python3
"""Draws first batches of small models, and works out by fractions what each is to come to.

draw_batches.py --seed S --count N prints N cases, each a block of lines:

    model ROWS COLUMNS         and then, a line each, `row LOW HIGH` and `column COST LOW HIGH ENTRY..` (one entry a row)
    batch MOST LIMIT
    chosen PLACE..             and what the batch does from the starting basis, in order:
    drop PLACE
    flip VARIABLE
    step PLACE LEAVING ENTERING TAU THETA BOUND OLD FLIP..   (what the flips change, a member a row)
    row PLACE MEMBER..         the row of the inverse of a place that remains behind the step, once all of it is brought there
    stop | none PLACE          its end, and behind `stop` the state that it leaves:
    values VALUE..             by place
    weights WEIGHT..           by place
    costs COST..               reduced costs by variable
    refused SCRIPT OPERATION LEFT RIGHT                      in place of what would follow

With --rust the same cases are printed as the table of `pami_batch`, whole:

    tools/draw_batches.py --seed 7 --count 72 --rust > crates/pami_batch/src/drawn_cases.rt

An infinite bound is `-`. Variables are numbered, columns first. Everything is solved afresh at each basis in fractions
without bound; that an operation fits in 128 bits is judged apart, in the order in which a major makes its operations.
"""
import argparse
import random
from fractions import Fraction as F
from math import gcd

MOST = 2 ** 127 - 1
WORDS = {"+": "add", "-": "sub", "*": "mul", "/": "div"}


class Refused(Exception):
    """An operation that doesn't fit, with its operands."""


def in_range(*numbers):
    return all(-MOST <= n <= MOST for n in numbers)


def sum_fits(x, y):
    g = gcd(x.denominator, y.denominator)
    left, right = x.numerator * (y.denominator // g), y.numerator * (x.denominator // g)
    return in_range(left, right, left + right, x.denominator * (y.denominator // g))


def apply(sign, x, y):
    """The value of an operation of 128-bit fractions, or its refusal."""
    value = {"+": F.__add__, "-": F.__sub__, "*": F.__mul__, "/": F.__truediv__}[sign](x, y)
    if sign in "+-":
        fits = sum_fits(x, y if sign == "+" else -y)
    else:
        fits = in_range(value.numerator, value.denominator)
    if x and y and not fits:
        raise Refused(f"{WORDS[sign]} {x} {y}")
    return value


def add_product(t, u, v):
    return apply("+", t, apply("*", u, v))


def sub_product(t, u, v):
    return apply("-", t, apply("*", u, v))


def product_sum(xs, ys):
    t = F(0)
    for x, y in zip(xs, ys):
        t = add_product(t, x, y)
    return t


def size(x):
    return abs(x.numerator).bit_length() - x.denominator.bit_length() if x else -127


def clamped(n):
    return max(0, min(16, n))


def solve(matrix, side):
    """x with matrix x = side, by exchange of rows over fractions; the matrix is a list of rows."""
    rows = [list(row) + [s] for row, s in zip(matrix, side)]
    for k in range(len(rows)):
        pivot = next(i for i in range(k, len(rows)) if rows[i][k])
        rows[k], rows[pivot] = rows[pivot], rows[k]
        rows[k] = [x / rows[k][k] for x in rows[k]]
        for i, row in enumerate(rows):
            if i != k and row[k]:
                rows[i] = [a - row[k] * b for a, b in zip(row, rows[k])]
    return [row[-1] for row in rows]


class Model:
    """Columns by variable, each by row; bounds and costs by variable. The last variables are the rows' own."""

    def __init__(self, rows, columns):
        self.m = len(rows)
        self.columns = [entries for _, _, entries in columns]
        self.columns += [[F(-1) if i == k else F(0) for i in range(self.m)] for k in range(self.m)]
        self.bounds = [bounds for _, bounds, _ in columns] + rows
        self.costs = [cost for cost, _, _ in columns] + [F(0)] * self.m

    def width(self, v):
        low, high = self.bounds[v]
        return None if low is None or high is None or low == high else high - low

    def is_fixed(self, v):
        low, high = self.bounds[v]
        return low is not None and low == high

    def fits(self):
        """Whether the program reads it as a form: the width of each boxed variable is a fraction that it has."""
        try:
            for v, (low, high) in enumerate(self.bounds):
                if self.width(v) is not None:
                    apply("-", high, low)
        except Refused:
            return False
        return True


class Point:
    """A basis with what is solved there: values and reduced costs by variable."""

    def __init__(self, model, head, stands):
        self.model, self.head, self.stands = model, head, stands
        m = model.m
        self.matrix = [[model.columns[v][i] for v in head] for i in range(m)]
        self.values = [F(0) if s == "B" else self.bound(v, s) for v, s in enumerate(stands)]
        side = [-sum((model.columns[v][i] * x for v, x in enumerate(self.values) if stands[v] != "B"), F(0)) for i in range(m)]
        for v, x in zip(head, solve(self.matrix, side)):
            self.values[v] = x
        y = self.row_of([model.costs[v] for v in head])
        self.reduced = [c - sum((a * b for a, b in zip(y, column)), F(0)) for c, column in zip(model.costs, model.columns)]

    def bound(self, v, stand):
        low, high = self.model.bounds[v]
        return {"L": low, "U": high, "Z": F(0)}[stand]

    def row_of(self, by_place):
        """The vector w by row with w B = by_place."""
        return solve([list(column) for column in zip(*self.matrix)] if self.matrix else [], by_place)

    def rho(self, place):
        return self.row_of([F(int(k == place)) for k in range(self.model.m)])

    def column(self, v):
        return solve(self.matrix, self.model.columns[v])

    def value(self, place):
        return self.values[self.head[place]]

    def violation(self, place):
        """(amount, side) of a place whose value is outside, by single operations; else None."""
        low, high = self.model.bounds[self.head[place]]
        x = self.value(place)
        if high is not None and x > high:
            return apply("-", x, high), "U"
        if low is not None and x < low:
            return apply("-", low, x), "L"
        return None


def starting(model):
    stands = []
    for v, (low, high) in enumerate(model.bounds[:-model.m]):
        if low is None and high is None:
            stands.append("Z")
        elif high is None or model.is_fixed(v):
            stands.append("L")
        elif low is None:
            stands.append("U")
        else:
            stands.append("L" if model.costs[v] >= 0 else "U")
    first = len(stands)
    return Point(model, list(range(first, first + model.m)), stands + ["B"] * model.m)


def is_dual_feasible(point):
    for v, s in enumerate(point.stands):
        d = point.reduced[v]
        if s != "B" and not point.model.is_fixed(v) and (s == "L" and d < 0 or s == "U" and d > 0 or s == "Z" and d):
            return False
    return True


def merit(amount, weight):
    return 2 * size(amount) - (weight.bit_length() - 1)


def walk(point, place, amount, side):
    """The entering variable, tau and the flips at a place; None where none enters. Its operations are made singly."""
    model, rho = point.model, point.rho(place)
    entries = {v: product_sum(rho, model.columns[v]) for v, s in enumerate(point.stands) if s != "B"}
    yield entries
    turned = {v: a if side == "U" else -a for v, a in entries.items()}
    wanted = {"L": lambda a: a > 0, "U": lambda a: a < 0, "Z": lambda a: a != 0}
    candidates = [v for v, a in turned.items() if not model.is_fixed(v) and wanted[point.stands[v]](a)]
    ratio = {v: apply("/", point.reduced[v], turned[v]) for v in candidates}
    slope, flips = amount, []
    for v in sorted(candidates, key=lambda v: (ratio[v], -abs(turned[v]), v)):
        w = model.width(v)
        if w is not None:
            slope = apply("-", slope, apply("*", abs(turned[v]), w))
            if slope > 0:
                flips.append(v)
                continue
        yield v, ratio[v], flips
        return
    yield None


class Batch:
    """The first batch of a model, told in lines."""

    def __init__(self, model, most, limit):
        self.model, self.most, self.limit = model, most, limit
        self.lines = []
        self.script = None

    def tell(self, *words):
        self.lines.append(" ".join(str(w) for w in words))

    def run(self, point):
        try:
            self.run_scripts(point)
        except Refused as refused:
            self.tell("refused", self.script, refused)
        return self.lines

    def run_scripts(self, point):
        m = self.model.m
        self.script = "choose"
        weights = [1] * m
        rows = []
        for p in range(m):
            found = point.violation(p)
            if found:
                rows.append((-merit(found[0], 1), -found[0], p))
        rows = [(p, -k) for k, _, p in sorted(rows)[:self.most]]
        self.tell("chosen", *(p for p, _ in rows))
        first, steps, k = point, [], 0
        while True:
            k += 1
            picked = self.pick(point, weights, rows, k)
            if picked is None:
                break
            place, (amount, side), rows = picked
            self.script = f"price-{k}-0"
            turns = walk(point, place, amount, side)
            entries = next(turns)
            self.script = f"ratio-{k}"
            found = next(turns)
            if found is None:
                self.tell("none", place)
                return
            point, weights = self.take(point, weights, place, side, entries, found, rows, k, steps)
        self.tell("stop")
        self.collect(first, point, weights, steps)

    def pick(self, point, weights, rows, k):
        """The place that leaves with its violation, and the rows that are left; None where the batch stops."""
        self.script = f"row-{k}"
        if k - 1 == self.limit:
            return None
        now = [(p, old, point.violation(p)) for p, old in rows]
        left = []
        for p, old, found in now:
            if found and merit(found[0], weights[p]) >= old - 2:
                left.append((p, old, found))
            else:
                self.tell("drop", p)
        if not left:
            return None
        best = min(left, key=lambda row: (-merit(row[2][0], weights[row[0]]), -row[2][0], row[0]))
        return best[0], best[2], [(p, old) for p, old, _ in left if p != best[0]]

    def take(self, point, weights, place, side, entries, found, rows, k, steps):
        model, m = self.model, self.model.m
        entering, tau, flips = found
        leaving = point.head[place]
        self.script = f"step-{k}"
        rho = point.rho(place)
        change = [F(0)] * m
        for v in sorted(flips):
            delta = model.width(v) if point.stands[v] == "L" else -model.width(v)
            change = [add_product(t, delta, a) for t, a in zip(change, model.columns[v])]
        bound = model.bounds[leaving][1 if side == "U" else 0]
        pivot = entries[entering]
        theta = apply("/", apply("-", apply("-", point.value(place), product_sum(rho, change)), bound), pivot)
        old = point.values[entering]
        for v in flips:
            self.tell("flip", v)
        self.tell("step", place, leaving, entering, tau, theta, bound, old, *change)
        steps.append((place, entering, old, bound, change))
        column = point.column(entering)
        head, stands = list(point.head), list(point.stands)
        for v in flips:
            stands[v] = "U" if stands[v] == "L" else "L"
        stands[leaving], stands[entering], head[place] = side, "B", entering
        behind = Point(model, head, stands)
        heavier = list(weights)
        for i in range(m):
            e = clamped(size(column[i]) - size(column[place]))
            if i != place and column[i]:
                heavier[i] = max(weights[i], min(2 ** (2 * e) * weights[place], 2 ** 40))
        heavier[place] = max(1, weights[place] >> (2 * clamped(size(column[place]))))
        for i, _ in rows:
            self.script = f"reach-{k}-{i}"
            self.reach(point, i, rho, entering, change, theta, pivot)
        self.script = f"shift-{k}-0"
        for v, a in entries.items():
            if v != entering:
                sub_product(point.reduced[v], tau, a if side == "U" else -a)
        for i, _ in rows:
            self.tell("row", i, *behind.rho(i))
        return behind, heavier

    def reach(self, point, i, rho, entering, change, theta, pivot):
        """The operations that bring a row that remains behind a step."""
        own = point.rho(i)
        alpha = product_sum(own, self.model.columns[entering])
        sub_product(apply("-", point.value(i), product_sum(own, change)), theta, alpha)
        share = apply("/", alpha, pivot)
        for x, y in zip(own, rho):
            sub_product(x, share, y)

    def collect(self, first, last, weights, steps):
        """The operations of the collective update; the columns of the starting basis are -1 each."""
        columns = []
        for k, (_, entering, *_) in enumerate(steps, 1):
            self.script = f"column-{k}"
            columns.append([apply("/", a, F(-1)) for a in self.model.columns[entering]])
        self.script = "flips"
        total = [F(0)] * self.model.m
        for *_, change in steps:
            total = [apply("+", t, c) for t, c in zip(total, change)]
        total = [apply("/", t, F(-1)) for t in total]
        pivots = []
        for k, (place, *_) in enumerate(steps, 1):
            self.script = f"transform-{k}"
            pivots.append((place, through(pivots, columns[k - 1])))
        self.script = "values"
        values = [apply("-", first.value(p), total[p]) for p in range(self.model.m)]
        for (place, _, old, bound, _), column in zip(steps, columns):
            values = [add_product(x, old, a) for x, a in zip(values, column)]
            values[place] = apply("-", values[place], bound)
        values = through(pivots, values)
        assert values == [last.value(p) for p in range(self.model.m)]
        self.tell("values", *values)
        self.tell("weights", *weights)
        self.tell("costs", *last.reduced)


def through(pivots, vector):
    """A vector by place through pivots in product form, the first one first."""
    vector = list(vector)
    for place, column in pivots:
        vector[place] = apply("/", vector[place], column[place])
        for i, a in enumerate(column):
            if i != place:
                vector[i] = sub_product(vector[i], a, vector[place])
    return vector


# ---- drawing

LARGE = [F(10) ** 18, F(1, 10 ** 18), F(2 ** 61 - 1), F(10 ** 19 - 39, 10 ** 7), F(1, 10 ** 19), F(10 ** 12 + 39)]


def number(draw, kind):
    if kind == "wide" and draw.random() < 0.4:
        return draw.choice(LARGE) * draw.choice([1, -1, 3, 7])
    return F(draw.choice([1, 1, 1, 2, 3, 4, 5, 7, 8, 16, 33]) * draw.choice([1, 1, -1]), draw.choice([1, 1, 1, 1, 2, 5, 4]))


def draw_column(draw, kind, m):
    entries = [number(draw, kind) if draw.random() < 0.6 else F(0) for _ in range(m)]
    cost = abs(number(draw, "small")) if draw.random() < 0.8 else F(0)
    shape = draw.random()
    if shape < 0.45:
        low = F(draw.choice([0, 0, 0, 1, -2]))
        return cost, (low, low + F(draw.choice([1, 1, 2, 3, 5]), draw.choice([1, 1, 2]))), entries
    if shape < 0.55:
        low = F(draw.randint(-2, 2))
        return cost, (low, low + draw.choice([0, 3])), entries
    if shape < 0.62:
        return F(0), (None, None), entries
    if shape < 0.7:
        return -cost, (None, F(draw.randint(0, 4))), entries
    return cost, (F(draw.choice([0, 0, 0, 1])), None), entries


def draw_row(draw, kind):
    x = abs(number(draw, kind)) * draw.choice([1, 2, 4, 8, 16])
    shape = draw.random()
    if shape < 0.6:
        return x, None
    if shape < 0.8:
        return None, -x
    if shape < 0.9:
        return x, x
    return x, x + 3


def draw_case(draw, kind):
    while True:
        m, n = draw.randint(2, 8), draw.randint(2, 8)
        rows = [draw_row(draw, kind) for _ in range(m)]
        columns = [draw_column(draw, kind, m) for _ in range(n)]
        model = Model(rows, columns)
        if not model.fits():
            continue
        point = starting(model)
        if not is_dual_feasible(point) or not starts(model):
            continue
        most = draw.randint(2, 8)
        limit = draw.choice([9, 9, 9, 9, 1, 2])
        lines = Batch(model, most, limit).run(point)
        if lines[0] != "chosen":
            return rows, columns, most, limit, lines


def starts(model):
    """Whether the starting values are worked out without a refusal."""
    n = len(model.columns) - model.m
    point = starting(model)
    try:
        for i in range(model.m):
            product_sum([model.columns[v][i] for v in range(n)], point.values[:n])
    except Refused:
        return False
    return True


def is_telling(lines, counts):
    """Whether a case shows what too few cases show so far."""
    kinds = set()
    left, flipped = set(), set()
    for line in lines:
        words = line.split()
        if words[0] == "refused":
            kinds.add("refused " + words[1].split("-")[0])
        elif words[0] in ("drop", "flip", "none", "stop"):
            kinds.add(words[0])
        if words[0] == "flip":
            if words[1] in flipped:
                kinds.add("flipped again")
            flipped.add(words[1])
        if words[0] == "step":
            if words[3] in left:
                kinds.add("left and entered")
            if words[3] in flipped:
                kinds.add("flipped and entered")
            left.add(words[2])
    if sum(line.startswith("step") for line in lines) > 2:
        kinds.add("three steps")
    fresh = [k for k in kinds if counts.get(k, 0) < 5]
    if not fresh:
        return False
    for k in kinds:
        counts[k] = counts.get(k, 0) + 1
    return True


def bound_word(x):
    return "-" if x is None else str(x)


def print_case(case):
    rows, columns, most, limit, lines = case
    print("model", len(rows), len(columns))
    for low, high in rows:
        print("row", bound_word(low), bound_word(high))
    for cost, (low, high), entries in columns:
        print("column", cost, bound_word(low), bound_word(high), *entries)
    print("batch", most, limit)
    print("\n".join(lines))
    print()


TABLE = """\
//! First batches of drawn models, with the lines that are due of each. It is written by another program
//! (`tools/draw_batches.py --seed {seed} --count {count} --rust`, whose head explains the lines), which solves each basis afresh in
//! fractions without bound.

use crate::drawn_tests::Drawn;
"""

NAMES = ["FIRST", "SECOND", "THIRD", "FOURTH", "FIFTH", "SIXTH"]


def table_case(case):
    """A case as a member of the table."""
    rows, columns, most, limit, lines = case
    row_words = "|".join(f"{bound_word(low)} {bound_word(high)}" for low, high in rows)
    column_words = "|".join(
        " ".join(map(str, [cost, bound_word(low), bound_word(high), *entries])) for cost, (low, high), entries in columns
    )
    due = "".join(line + "|" for line in lines)
    members = [("rows", f'"{row_words}"'), ("columns", f'"{column_words}"'), ("most", most), ("limit", limit), ("due", f'"{due}"')]
    return "    Drawn {\n" + "".join(f"        {name}: {value},\n" for name, value in members) + "    },\n"


def print_table(cases, seed):
    """The cases in as many lists as there are names, each as long as the others."""
    if len(cases) % len(NAMES):
        raise SystemExit(f"--rust takes a --count that {len(NAMES)} divides")
    print(TABLE.format(seed=seed, count=len(cases)), end="")
    each = len(cases) // len(NAMES)
    for k, name in enumerate(NAMES):
        print(f"\npub(crate) const {name}: [Drawn; {each}] = [")
        print("".join(map(table_case, cases[k * each : (k + 1) * each])), end="")
        print("];")


def main():
    words = argparse.ArgumentParser(description=__doc__, formatter_class=argparse.RawDescriptionHelpFormatter)
    words.add_argument("--seed", type=int, required=True)
    words.add_argument("--count", type=int, default=64)
    words.add_argument("--counts", action="store_true", help="print what the cases show, not the cases")
    words.add_argument("--rust", action="store_true", help="print the table that pami_batch tests, not the blocks")
    words = words.parse_args()
    draw = random.Random(words.seed)
    counts, cases, tried = {}, [], 0
    while len(cases) < words.count:
        tried += 1
        case = draw_case(draw, "wide" if tried % 2 else "small")
        if is_telling(case[-1], counts) or tried > 20000:
            cases.append(case)
    if words.counts:
        print(tried, counts)
    elif words.rust:
        print_table(cases, words.seed)
    else:
        for case in cases:
            print_case(case)


if __name__ == "__main__":
    main()
