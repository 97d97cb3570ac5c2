#!/usr/bin/env python3
"""Draws small LP models by a seed, to compare two programs that read the MPS profile of docs/FORMATS.md.

draw_models.py --seed S --count N FOLDER writes N models m0000.mps, m0001.mps, .. to FOLDER, and `limits.txt` with a
line `NAME K` for each: how many pivots are to be allowed. Model I of a seed is the same whatever N is, and its kind is
the one at place I of KINDS, over and over, so each kind has a fixed share. Which answer a model gets isn't known here.
"""
import argparse
import os
import random
from decimal import Decimal, getcontext

# Sums of products of the numbers below are exact.
getcontext().prec = 400

# No model of a drawn kind that ends by itself needs as many pivots; one that goes round in a circle ends there.
ENOUGH = 200
# Whole numbers where widths of 32, 64 and 127 binary digits end, and what makes them pass.
EDGES = [1, 2, 3, 5, 2**31, 2**32 - 1, 2**62, 2**63 - 1, 2**63, 2**64 - 1, 2**64, 2**64 + 13, 3**40, 2**125 + 9,
         2**126 - 1, 2**126, 3**79, 2**127 - 1]
# A right-hand side has to be below 10^20.
SIDE_LIMIT = Decimal(10) ** 20


class Model:
    """Rows are [type, name, side], columns are [name, cost, {row number: value}].

    `ranges` has values by row number, `bounds` by column number lists of (type, value), in the order of their lines. A side
    and a value of RANGES or BOUNDS may be a text too, and a bound's value None.
    """

    def __init__(self):
        self.rows = []
        self.columns = []
        self.constant = Decimal(0)
        self.maximise = False
        self.ranges = {}
        self.bounds = {}

    def add_row(self, kind, side):
        self.rows.append([kind, f"r{len(self.rows)}", Decimal(side)])
        return len(self.rows) - 1

    def add_column(self, cost, entries):
        self.columns.append([f"x{len(self.columns)}", Decimal(cost), entries])

    def activities(self, point):
        """Each row's left-hand side at a point."""
        sums = [Decimal(0)] * len(self.rows)
        for (_, _, entries), value in zip(self.columns, point):
            for row, entry in entries.items():
                sums[row] += entry * value
        return sums

    def meet(self, draw, point, most_room):
        """Gives each row a side that the point meets, with some room where the row isn't E."""
        for row, sum_ in zip(self.rows, self.activities(point)):
            room = draw.randint(0, most_room)
            row[2] = sum_ + {"G": -room, "L": room, "E": 0}[row[0]]

    def add_ranges(self, draw, share):
        """Gives some rows a range: rows that a point meets go on to be met, E rows are widened."""
        for number, row in enumerate(self.rows):
            if draw.random() < share:
                width = draw.choice([0, 1, 1, 2, 5, Decimal("0.5")]) + (4 if row[0] != "E" else 0)
                self.ranges[number] = width * sign(draw, 0.5)

    def turn(self):
        """The same model as a maximum."""
        self.maximise = True
        for column in self.columns:
            column[1] = -column[1]
        self.constant = -self.constant


# ---- numbers

def small(draw):
    return Decimal(draw.randint(1, 9))


def cents(draw):
    return Decimal(draw.randint(1, 999)).scaleb(-draw.choice([1, 2, 2, 3]))


def long(draw):
    """Up to 18 digits before and 18 behind the point."""
    before, behind = draw.choice([(1, 18), (6, 6), (9, 9), (18, 0), (18, 18), (12, 3), (0, 12), (4, 15)])
    return Decimal(draw.randint(1, 10 ** (before + behind) - 1)).scaleb(-behind)


def huge(draw):
    return Decimal(draw.randint(1, 99)).scaleb(draw.randint(8, 36))


def tiny(draw):
    return Decimal(draw.randint(1, 99)).scaleb(-draw.randint(8, 38))


def odd(draw):
    """A whole number with few common factors."""
    return Decimal(draw.randint(10 ** 8, 10 ** draw.choice([9, 12, 15, 19, 25])) | 1)


def edge(draw):
    """A number at the end of a width, or a power of two in decimals."""
    if draw.random() < 0.3:
        return Decimal(1) / Decimal(2 ** draw.choice([1, 7, 16, 31, 32, 37, 38]))
    return Decimal(draw.choice(EDGES))


STYLES = [long, huge, tiny, odd, edge]


def sign(draw, minus):
    """-1 with this probability, else 1."""
    return -1 if draw.random() < minus else 1


def as_side(value):
    """The number brought below the limit of right-hand sides by a shift of its point."""
    while abs(value) >= SIDE_LIMIT:
        value = value.scaleb(-6)
    return value


# ---- kinds of models

def feasible(draw, entry, cost, rows, columns, minus=0.2):
    """A model that is met by a point, with most rows missed by the plan of nothing."""
    model = Model()
    for _ in range(rows):
        model.add_row(draw.choice("GGGGLE"), 0)
    for _ in range(columns):
        count = min(rows, draw.choice([1, 2, 2, 3, 3, 4]))
        members = {i: entry(draw) * sign(draw, minus) for i in draw.sample(range(rows), count)}
        model.add_column(cost(draw), members)
    model.meet(draw, [draw.choice([0, 1, 2, 5, 7]) for _ in range(columns)], 3)
    return model


def optimal(draw):
    style = draw.choice([small, small, cents])
    return feasible(draw, style, draw.choice([small, cents, style]), draw.randint(3, 9), draw.randint(4, 12))


def larger(draw):
    """Small numbers in more rows, for more pivots."""
    return feasible(draw, small, draw.choice([small, cents]), draw.randint(12, 20), draw.randint(25, 45))


def infeasible(draw):
    """A feasible model with one more row, which contradicts a sum of others."""
    model = optimal(draw)
    sums, side = {}, Decimal(0)
    below = [i for i, row in enumerate(model.rows) if row[0] != "L"]
    chosen = draw.sample(below, min(len(below), draw.randint(1, 3)))
    for i in chosen:
        sums[i] = small(draw)
        side += sums[i] * model.rows[i][2]
    last = model.add_row("L", side - draw.choice([1, Decimal("0.001"), 5]))
    for _, _, entries in model.columns:
        sum_ = sum((times * entries.get(i, 0) for i, times in sums.items()), Decimal(0))
        sum_ += draw.choice([0, 0, 1])
        if sum_:
            entries[last] = sum_
    return model


def falling(draw):
    """Some cost is below 0."""
    model = draw.choice([optimal, ties, infeasible, wide])(draw)
    for column in draw.sample(model.columns, draw.randint(1, 2)):
        column[1] = -draw.choice([small, cents, tiny])(draw)
    return model


def ties(draw):
    """Ones and zeros: equal ratios, equal misses, rows twice, values at their bounds."""
    model = Model()
    rows, columns = draw.randint(3, 10), draw.randint(3, 12)
    for _ in range(rows):
        model.add_row(draw.choice("GGGLE"), 0)
    for _ in range(columns):
        count = min(rows, draw.randint(1, 4))
        members = {i: Decimal(sign(draw, 0.3)) for i in draw.sample(range(rows), count)}
        model.add_column(draw.choice([0, 0, 1, 1, 2]), members)
    model.meet(draw, [draw.choice([0, 0, 1]) for _ in range(columns)], draw.choice([0, 0, 1]))
    for _ in range(draw.randint(0, 2)):
        copied = draw.randrange(len(model.rows))
        row = model.add_row(*model.rows[copied][::2])
        for _, _, entries in model.columns:
            if copied in entries:
                entries[row] = entries[copied]
    if draw.random() < 0.5:
        model.add_column(*draw.choice(model.columns)[1:])
    return model


def wide(draw):
    """Costs, entries and sides of different styles, so that an operation doesn't fit somewhere."""
    styles = [draw.choice(STYLES + [small, cents]) for _ in range(3)]
    shares = [draw.choice([0, 0.1, 0.3, 0.6, 1]) for _ in range(3)]
    free = draw.choice([0, 0.2, 0.5, 1])

    def number(part):
        return styles[part](draw) if draw.random() < shares[part] else draw.choice([small, small, cents])(draw)

    model = Model()
    rows, columns = draw.randint(2, 7), draw.randint(2, 8)
    for _ in range(rows):
        model.add_row(draw.choice("GGGGLE"), as_side(number(2)))
    for _ in range(columns):
        count = min(rows, draw.randint(1, 4))
        members = {i: number(1) * sign(draw, 0.15) for i in draw.sample(range(rows), count)}
        model.add_column(0 if draw.random() < free else number(0), members)
    return model


def stairs(draw):
    """Column K has entries in rows up to K and perhaps in the last ones: solves by a long chain of quotients.

    Most costs are 0, so that nothing is refused in a ratio or a reduced cost before.
    """
    digits = draw.choice([4, 8, 12, 15, 19, 25])
    behind = draw.choice([0, 0, digits // 2, digits])

    def number():
        return Decimal(draw.randint(1, 10 ** digits) | 1).scaleb(-behind)

    steps, more = draw.randint(2, 6), draw.randint(0, 3)
    model = Model()
    for i in range(steps + more):
        side = draw.choice([small(draw) * 10 ** draw.randint(0, 9), as_side(number())])
        model.add_row("G" if i < steps else draw.choice("GGGE"), side)
    for k in range(steps):
        members = {k: draw.choice([number, number, lambda: small(draw)])()}
        for i in [*range(k), *range(steps, steps + more)]:
            if draw.random() < 0.5:
                members[i] = draw.choice([number(), small(draw)]) * sign(draw, 0.5)
        model.add_column(draw.choice([0, 0, 0, 1]), members)
    for _ in range(draw.randint(0, 3)):
        members = {i: draw.choice([number(), small(draw)]) for i in range(len(model.rows)) if draw.random() < 0.5}
        model.add_column(draw.choice([0, 0, 1]), members)
    return model


def dense(draw):
    """Equations in which most entries stand: each pivot adds digits, until the elimination or a solve doesn't fit."""
    digits = draw.choice([2, 3, 4, 6, 8, 11])
    behind = draw.choice([0, 0, digits // 2])
    most = draw.choice([0, 0, 9])
    model = Model()
    rows = draw.randint(3, 6)
    for _ in range(rows):
        model.add_row(draw.choice("EEEG"), 0)
    for _ in range(rows + draw.randint(0, 3)):
        members = [i for i in range(rows) if draw.random() < 0.85]
        entries = {i: Decimal(draw.randint(1, 10 ** digits)).scaleb(-behind) for i in members}
        model.add_column(draw.randint(0, most), entries)
    model.meet(draw, [draw.randint(0, 5) for _ in model.columns], 2)
    return model


def lower(draw):
    """A triangle of wide entries whose sides are met by small values: the values stay small, the inverse doesn't."""
    digits = draw.randint(10, 35)
    behind = max(0, digits - 17)
    model = Model()
    count = draw.randint(3, 6)
    for _ in range(count):
        model.add_row("G", 0)
    for k in range(count):
        members = {}
        for i in range(k, count):
            if i == k or draw.random() < 0.7:
                members[i] = Decimal(draw.randint(1, 10 ** max(1, digits - 2 * i)) | 1).scaleb(-behind)
        model.add_column(draw.choice([0, 0, 0, 1]), members)
    model.meet(draw, [draw.randint(1, 6) for _ in range(count)], 0)
    return model


def delayed(draw):
    """Row b is missed only once x0 has entered. The elimination takes its entries in another order than the pivots did.

    So the pivots may fit where a product or a difference of the elimination behind them doesn't.
    """
    model = Model()
    a, b, c, last = (model.add_row(kind, 0) for kind in "EGEG")
    power = draw.randint(17, 20)
    first = Decimal(10 ** draw.randint(36, 40) * draw.randint(10, 99) // (10 * 5 ** power) | 1)
    second = Decimal(draw.randint(1, 10 ** draw.randint(10, 17)) | 1) / 5 ** power
    unit = draw.choice([1000, 4096, 10 ** 5])
    less, more = Decimal(draw.randint(1, 4)) / unit, Decimal(draw.randint(5, 20)) / unit
    model.add_column(0, {a: Decimal(1), b: -first})
    model.add_column(0, {a: more, b: second, c: 64 * less})
    model.add_column(0, {a: Decimal(1), c: Decimal(64)})
    model.meet(draw, [Decimal("1e-9"), 1, 30], 0)
    model.rows[last][2] = Decimal(draw.randint(1, 9)).scaleb(-12)
    model.add_column(0, {last: Decimal(1)})
    return model


def aside(draw):
    """Rows mended one after another by columns that mostly cost nothing.

    The values are small, but a column has a wide entry in a row that was mended before, and perhaps in a later one.
    """
    model = Model()
    count = draw.randint(2, 5)
    digits = draw.randint(6, 18)
    pivots = [Decimal(draw.randint(1, 10 ** (digits - 2 * k if digits > 2 * k else 1)) | 1) for k in range(count)]
    for pivot in pivots:
        model.add_row("G", pivot * small(draw))
    for k, pivot in enumerate(pivots):
        members = {k: pivot}
        if k and draw.random() < 0.7:
            members[draw.randrange(k)] = draw.choice([odd, tiny, long, huge, edge])(draw) * sign(draw, 0.2)
        if k + 1 < count and draw.random() < 0.5:
            later = draw.randrange(k + 1, count)
            members[later] = Decimal(draw.randint(1, 10 ** digits)).scaleb(-draw.choice([3, digits]))
        model.add_column(draw.choice([0, 0, 0, 1]), members)
    return model


def met_wide(draw):
    """As `feasible`, with fewer digits, so that several pivots are made before an operation doesn't fit."""
    def number(it):
        return Decimal(it.randint(1, 10 ** digits)).scaleb(-it.randint(0, digits))

    digits = draw.choice([2, 3, 4, 5, 6])
    return feasible(draw, number, draw.choice([small, number]), draw.randint(4, 9), draw.randint(4, 12), 0.1)


def chains(draw):
    """Blocks of rows that share a column: one row's pivot mends the next, passes it, or makes its numbers too wide."""
    model = Model()
    for _ in range(draw.randint(1, 3)):
        draw.choice([dropping, returning, refusing, refusing, overflowing, spread])(draw, model)
    if draw.random() < 0.3:
        row = model.add_row("G", small(draw))
        for _, _, entries in model.columns:
            entries[row] = small(draw)
    return model


def dropping(draw, model):
    """x >= 8, x >= 4 and y >= 1: the first pivot meets the second row too."""
    side = draw.randint(2, 20)
    first, second, third = (model.add_row("G", it) for it in (side, draw.randint(1, side), draw.randint(1, 3)))
    entry = small(draw)
    model.add_column(small(draw), {first: entry, second: entry})
    model.add_column(small(draw), {third: Decimal(1)})


def returning(draw, model):
    """10 x >= 40 and x >= 6: the first row's variable leaves, and enters again."""
    times = draw.choice([3, 7, 10, 10 ** 9, 10 ** 18])
    first, second = model.add_row("G", 4 * times), model.add_row("G", 4 + draw.randint(1, 5))
    model.add_column(small(draw), {first: Decimal(times), second: Decimal(1)})


def refusing(draw, model):
    """10 x >= 100 and 1e-38 x >= 1e-38: the second row's quotient is too wide, but the first pivot meets it."""
    times = draw.choice([10, 30, 7, 1000])
    power = draw.choice([38, 38, 37, 30])
    first = model.add_row("G", 10 * times)
    second = model.add_row("G", Decimal(draw.randint(1, 9)).scaleb(-power))
    model.add_column(small(draw), {first: Decimal(times), second: Decimal(1).scaleb(-power)})


def overflowing(draw, model):
    """10 x >= 100 and 1e-38 x >= 1: the second row leaves after the first, and the elimination doesn't fit."""
    times = draw.choice([10, 30, 7, 1000])
    first, second = model.add_row("G", 10 * times), model.add_row("G", draw.randint(1, 9))
    entry = Decimal(draw.randint(1, 9)).scaleb(-draw.choice([38, 38, 30]))
    model.add_column(small(draw), {first: Decimal(times), second: entry})


def spread(draw, model):
    """Rows that share two columns, the entries of one of them of very different sizes."""
    rows = [model.add_row("G", draw.randint(1, 40)) for _ in range(draw.randint(2, 4))]
    model.add_column(small(draw), {i: draw.choice([small, tiny, odd])(draw) for i in rows})
    model.add_column(small(draw), {i: small(draw) for i in rows})


def slices(draw):
    """More variables than one slice of 64 holds, with wide costs or entries behind the first slice."""
    rows, columns = draw.randint(2, 5), draw.randint(64, 150)
    begin, share = draw.choice([64, 64, 100]), draw.choice([0, 0.2, 0.5])
    first = draw.choice([small, cents, odd, odd])
    entry, cost = draw.choice(STYLES), draw.choice([small, long, huge, edge])
    model = Model()
    for i in range(rows):
        model.add_row(draw.choice("GGGE"), small(draw) * 10 ** (rows - i))
    for j in range(columns):
        chosen = draw.sample(range(rows), min(rows, draw.randint(1, 3)))
        if j < rows:
            model.add_column(draw.choice([0, 1]), {i: first(draw) for i in chosen})
        elif j >= begin and draw.random() < share:
            model.add_column(max(cost(draw), Decimal(100)), {i: entry(draw) * sign(draw, 0.4) for i in chosen})
        else:
            model.add_column(small(draw) + draw.choice([0, 3, 30]), {i: small(draw) * sign(draw, 0.15) for i in chosen})
    return model


def priced(draw):
    """Costs that are wide beside their entries: a ratio or a reduced cost doesn't fit."""
    model = wide(draw) if draw.random() < 0.2 else optimal(draw)
    for column in draw.sample(model.columns, draw.randint(1, len(model.columns))):
        column[1] = draw.choice([long, odd, huge, edge])(draw)
        if draw.random() < 0.4:
            for i in column[2]:
                column[2][i] = draw.choice([tiny, odd, long])(draw)
    return model


def sided(draw):
    """Sides that are wide beside their entries: a step, a value or a distance doesn't fit."""
    model = optimal(draw)
    for row in draw.sample(model.rows, draw.randint(1, len(model.rows))):
        row[2] = as_side(draw.choice([long, tiny, odd, huge])(draw)) * sign(draw, 0.1)
    for _, _, entries in draw.sample(model.columns, draw.randint(0, 2)):
        for i in entries:
            if draw.random() < 0.5:
                entries[i] = draw.choice([long, odd])(draw)
    return model


def stopped(draw):
    """A model that will get a small limit."""
    return draw.choice([optimal, infeasible, ties, ties, met_wide, chains, wide, boxes, many_boxes, many_boxes])(draw)


# ---- kinds of models with bounds and ranges

def add_bounded(draw, model, sort, entries, number=small):
    """Adds a column of a sort of bounds, at a cost by which the start is dual feasible. Answers a value within its bounds."""
    at, cost = len(model.columns), draw.choice([small, cents])(draw)
    low = draw.choice([Decimal(0), Decimal(0), number(draw), -number(draw)])
    width = number(draw)
    if sort == "boxed":
        cost *= draw.choice([0, 1, 1, 1, -1])
        model.bounds[at] = draw.choice([[("LO", low), ("UP", low + width)], [("UP", low + width), ("LO", low)]])
        value = low + width * draw.choice([0, 1, 1, Decimal("0.5")])
    elif sort == "fixed":
        cost *= sign(draw, 0.5)
        model.bounds[at] = draw.choice([[("FX", low)], [("FX", low)], [("LO", low), ("UP", low)]])
        value = low
    elif sort == "free":
        cost = 0
        model.bounds[at] = draw.choice([[("FR", None)], [("MI", None)], [("LO", "-inf")], [("LO", low), ("MI", None)]])
        value = Decimal(draw.randint(-3, 3))
    elif sort == "upper":
        cost *= draw.choice([0, -1, -1])
        below = [[("UP", -width)], [("MI", None), ("UP", -width)], [("UP", -width), ("LO", "-1e20")]]
        model.bounds[at] = draw.choice(below)
        value = -width - draw.choice([0, 0, 1, 4])
    else:
        model.bounds[at] = draw.choice([[("LO", low)], [("LO", low), ("UP", "inf")], [("PL", None), ("LO", low)]])
        value = low + draw.choice([0, 0, 1, 4])
    model.add_column(cost, entries)
    return value


def with_bounds(draw, sorts, entry, bound, minus=0.2):
    """Columns of some sorts of bounds and rows of all types with ranges, which a point meets."""
    model, point = Model(), []
    rows, columns = draw.randint(2, 8), draw.randint(3, 14)
    for _ in range(rows):
        model.add_row(draw.choice("GGGLE"), 0)
    for _ in range(columns):
        members = draw.sample(range(rows), min(rows, draw.choice([1, 2, 2, 3])))
        entries = {i: entry(draw) * sign(draw, minus) for i in members}
        point.append(add_bounded(draw, model, draw.choice(sorts), entries, bound))
    model.meet(draw, point, 2)
    model.add_ranges(draw, draw.choice([0, 0.3, 0.7]))
    return model


def boxes(draw):
    """Mostly columns of two bounds, so that a walk passes some of them."""
    return with_bounds(draw, ["boxed"] * 5 + ["lifted"], draw.choice([small, small, cents]), draw.choice([small, cents]))


def bounded(draw):
    """All sorts of bounds."""
    sorts = ["boxed", "boxed", "fixed", "free", "upper", "lifted", "lifted"]
    return with_bounds(draw, sorts, small, draw.choice([small, small, cents]))


def boxes_left(draw):
    """One more row asks for a little more than all columns at their better bounds give: no variable enters behind flips."""
    model = with_bounds(draw, ["boxed"], small, small)
    most, members = Decimal(0), {}
    for at in draw.sample(range(len(model.columns)), draw.randint(1, len(model.columns))):
        values = dict(model.bounds[at])
        members[at] = small(draw) * sign(draw, 0.3)
        most += max(members[at] * values["LO"], members[at] * values["UP"])
    row = model.add_row("G", most + draw.choice([0, 0, Decimal("0.001"), 1]))
    for at, value in members.items():
        model.columns[at][2][row] = value
    return model


def boxes_wide(draw):
    """Boxes, entries or costs of many digits: an operation of a walk with flips doesn't fit."""
    style = draw.choice([long, odd, tiny, *(met_digits(digits) for digits in (3, 4, 5, 6, 8))])
    narrow = lambda it: as_side(style(it))  # noqa: E731
    entry, bound = draw.choice([(style, small), (small, narrow), (style, narrow)])
    model = with_bounds(draw, ["boxed"] * 4 + ["lifted", "upper"], entry, bound)
    for row in model.rows:
        row[2] = as_side(row[2]) if len(row[2].as_tuple().digits) < 39 else small(draw)
    return model


def met_digits(digits):
    """A drawer of numbers of some digits."""
    return lambda draw: Decimal(draw.randint(1, 10 ** digits)).scaleb(-draw.randint(0, digits))


def many_boxes(draw):
    """Rows that many cheap boxed columns mend one after another: walks with many flips."""
    model, count = Model(), draw.randint(8, 30)
    rows = [model.add_row("G", 0) for _ in range(draw.randint(1, 3))]
    for _ in range(count):
        entries = {i: small(draw) for i in rows if draw.random() < 0.8}
        add_bounded(draw, model, "boxed", entries)
    model.add_column(draw.randint(20, 40), {i: Decimal(1) for i in rows})
    for i in rows:
        reach = sum((column[2].get(i, 0) * 9 for column in model.columns), Decimal(0))
        model.rows[i][2] = (reach * draw.randint(1, 9) / 10).quantize(Decimal(1))
    model.add_ranges(draw, 0.2)
    if draw.random() < 0.4:
        draw.choice([overflowing, overflowing, refusing, spread])(draw, model)
    return model


def lifted(draw):
    """Bounds of very different sizes in one row: the values of the start may not fit."""
    model, style = Model(), draw.choice([tiny, long, huge, edge, small])
    rows = [model.add_row(draw.choice("GLE"), as_side(small(draw))) for _ in range(draw.randint(1, 3))]
    for _ in range(draw.randint(2, 5)):
        entries = {i: draw.choice([small, style])(draw) for i in rows if draw.random() < 0.8}
        bound = as_side(draw.choice([tiny, long, odd, style])(draw))
        model.bounds[len(model.columns)] = [(draw.choice(["LO", "LO", "FX"]), bound)]
        model.add_column(small(draw), entries)
    return model


def summed(draw):
    """An objective whose sum may not fit, at the end of a run that does."""
    model = draw.choice([boxes, bounded, optimal])(draw)
    model.constant = draw.choice([tiny, long])(draw) * sign(draw, 0.5)
    for column in model.columns:
        column[1] *= draw.choice([1, 10 ** 9, 10 ** 25])
    return model


def spread_box(draw):
    """A box whose width may not fit."""
    model = draw.choice([boxes, bounded])(draw)
    at = draw.randrange(len(model.columns))
    low, high = tiny(draw) * sign(draw, 0.3), as_side(draw.choice([huge, odd])(draw)) + 1
    model.bounds[at] = [("LO", low), ("UP", high)]
    if draw.random() < 0.3:
        row = model.add_row("L", high)
        model.ranges[row] = as_side(draw.choice([huge, odd, tiny])(draw))
        model.columns[at][2][row] = small(draw)
    return model


def without_ends(draw):
    """Sides, ranges and bounds that are infinite."""
    model = bounded(draw)
    for number, row in enumerate(model.rows):
        way = draw.random()
        if way < 0.3 and row[0] != "E":
            row[2] = {"L": draw.choice(["inf", "+Infinity", "1e20", "99e30"]), "G": draw.choice(["-INF", "-1e20"])}[row[0]]
            model.ranges.pop(number, None)
        elif way < 0.6:
            model.ranges[number] = draw.choice(["inf", "-inf", "1e25", "-infinity"])
    return model


def maximum(draw):
    """A maximum, mostly one whose start is dual feasible."""
    model = draw.choice([optimal, infeasible, ties, boxes, bounded, boxes_left, summed, without_ends])(draw)
    model.turn()
    if draw.random() < 0.2:
        draw.choice(model.columns)[1] = small(draw)
    return model


def boxed_falling(draw):
    """Some cost is of the sign that the start can't have."""
    model = draw.choice([bounded, maximum])(draw)
    for column in draw.sample(model.columns, draw.randint(1, 2)):
        column[1] = (column[1] or small(draw)) * sign(draw, 0.7)
    return model


# ---- texts

def text_of(draw, value):
    """One of the texts of a decimal. A text stays as it is."""
    if isinstance(value, str):
        return value
    short = Decimal(value).normalize()
    plain = f"{short:f}"
    way = draw.random()
    if len(plain) > 44 or way < 0.04:
        return f"{short:E}" if draw.random() < 0.5 else f"{short:e}"
    if way < 0.06 and short > 0:
        return "+" + plain
    if way < 0.10 and "." not in plain:
        return plain + draw.choice([".", ".0", "e0", "E+00"])
    if way < 0.14 and plain.startswith("0."):
        return plain[1:] + "0"
    return plain


def pair_lines(draw, pairs, front):
    """Lines of one or two pairs behind a word that may be empty."""
    lines = []
    while pairs:
        count = draw.choice([1, 1, 2])
        words = [front] + [f"{row} {value}" for row, value in pairs[:count]]
        lines.append(" " + draw.choice([" ", " ", "   ", "\t"]).join(word for word in words if word))
        pairs = pairs[count:]
    return lines


def lines_of(draw, model):
    """The model's lines, of each section apart."""
    rows = [f" {kind} {name}" for kind, name, _ in model.rows]
    rows.insert(draw.choice([0, 0, len(rows)]), " N cost")
    free = draw.random() < 0.1
    if free:
        rows.append(" N free")
    columns = []
    for name, cost, entries in model.columns:
        pairs = [(model.rows[i][1], text_of(draw, value)) for i, value in entries.items()]
        if cost or not pairs or draw.random() < 0.1:
            pairs.insert(draw.randint(0, len(pairs)), ("cost", text_of(draw, cost)))
        if free and draw.random() < 0.5:
            pairs.append(("free", text_of(draw, small(draw))))
        columns += pair_lines(draw, pairs, name)
    sides = [(name, text_of(draw, side)) for _, name, side in model.rows if side or draw.random() < 0.1]
    if model.constant:
        sides.append(("cost", text_of(draw, -model.constant)))
    if free and draw.random() < 0.3:
        sides.append(("free", draw.choice(["7", "inf", "-1e20"])))
    draw.shuffle(sides)
    return rows, columns, pair_lines(draw, sides, draw.choice(["", "rhs"]))


def range_lines(draw, model):
    """The lines of RANGES."""
    ranges = [(model.rows[i][1], text_of(draw, value)) for i, value in model.ranges.items()]
    if draw.random() < 0.1:
        unranged = [row[1] for i, row in enumerate(model.rows) if row[0] == "E" and i not in model.ranges]
        ranges += [(name, draw.choice(["0", "-0.0"])) for name in unranged]
    draw.shuffle(ranges)
    return pair_lines(draw, ranges, draw.choice(["", "rng"]))


def bound_lines(draw, model):
    """The lines of BOUNDS, a column's in their order, and some that change nothing."""
    given = {at: list(lines) for at, lines in model.bounds.items()}
    for at in range(len(model.columns)):
        if at not in given and draw.random() < 0.05:
            given[at] = [draw.choice([("LO", Decimal(0)), ("PL", None), ("UP", "1e20"), ("UP", "INF")])]
    waiting = [at for at, lines in given.items() for _ in lines]
    if draw.random() < 0.3:
        draw.shuffle(waiting)
    lines, set_name = [], draw.choice(["", "bnd"])
    for at in waiting:
        kind, value = given[at].pop(0)
        words = [kind, set_name, model.columns[at][0], "" if value is None else text_of(draw, value)]
        if value is None and set_name and draw.random() < 0.2:
            words[3] = "unread"
        lines.append(" " + " ".join(word for word in words if word))
    return lines


def sense_lines(draw, model):
    """The lines of OBJSENSE, which a minimum mostly has none of."""
    if not model.maximise and draw.random() < 0.9:
        return []
    word = draw.choice(["MAX", "MAXIMIZE"] if model.maximise else ["MIN", "MINIMIZE"])
    return draw.choice([[f"OBJSENSE {word}"], ["OBJSENSE", f"    {word}"]])


def mps(draw, model):
    """The model as a text of one of the layouts that the profile reads."""
    if draw.random() < 0.2:
        model.constant = draw.choice([small, cents, long])(draw) * sign(draw, 0.5)
    rows, columns, sides = lines_of(draw, model)
    lines = draw.choice([["NAME drawn"], ["NAME"], []]) + sense_lines(draw, model)
    lines += ["ROWS", *rows, "COLUMNS", *columns]
    for word, given in (("RHS", sides), ("RANGES", range_lines(draw, model)), ("BOUNDS", bound_lines(draw, model))):
        if given or draw.random() < 0.2:
            lines += [word, *given]
    lines.append("ENDATA")
    if draw.random() < 0.1:
        lines.insert(draw.randint(0, len(lines)), draw.choice(["* a comment", "", "  \t "]))
    end = "\r\n" if draw.random() < 0.1 else "\n"
    return end.join(lines) + end


# Each place is worth the same share.
KINDS = [
    optimal, infeasible, wide, ties, chains, met_wide, priced, stopped, lower, slices,
    boxes, bounded, boxes_wide, boxes_left, many_boxes, maximum, lifted, summed, without_ends, boxes,
    larger, infeasible, dense, ties, aside, met_wide, sided, stopped, stairs, delayed,
    boxes, bounded, boxes_wide, boxes_left, many_boxes, maximum, boxed_falling, bounded, without_ends, boxes_wide,
    optimal, infeasible, wide, ties, chains, falling, lower, slices, aside, spread_box,
]


def drawn(seed, number):
    """The text of a model, and how many pivots are to be allowed."""
    draw = random.Random(f"model {seed} {number}")
    kind = KINDS[number % len(KINDS)]
    return mps(draw, kind(draw)), draw.randint(0, 5) if kind is stopped else ENOUGH


def write_all(seed, count, folder):
    """Writes the models and their limits, and answers (name, limit) of each."""
    written = []
    for number in range(count):
        text, limit = drawn(seed, number)
        name = f"m{number:04d}.mps"
        with open(os.path.join(folder, name), "w", encoding="ascii", newline="") as file:
            file.write(text)
        written.append((name, limit))
    with open(os.path.join(folder, "limits.txt"), "w", encoding="ascii") as file:
        file.writelines(f"{name} {limit}\n" for name, limit in written)
    return written


def main():
    parser = argparse.ArgumentParser(description=__doc__.split("\n")[0])
    parser.add_argument("--seed", type=int, required=True)
    parser.add_argument("--count", type=int, required=True)
    parser.add_argument("folder")
    given = parser.parse_args()
    os.makedirs(given.folder, exist_ok=True)
    write_all(given.seed, given.count, given.folder)


if __name__ == "__main__":
    main()
