#!/usr/bin/env python3
"""Draws square matrices, and works out by fractions what the elimination of each is to come to.

draw_matrices.py --seed S --count N prints N matrices, a line each: its columns, parted by `|`, and behind ` = ` the steps, each its
row and its place, the part of the row that it keeps at the places that are left, and its multipliers by row; or `singular PLACE`; or
`refused OPERATION LEFT RIGHT`. With --rust the same cases are printed as the table of `pami_dense`, whole:

    tools/draw_matrices.py --seed 5 --count 24 --rust > crates/pami_dense/src/cases.rt

Of the active entries that aren't 0 the pivot is the one with the least product of the others in its row and in its column, then the
one in the left column, then the upper one. Each operation is made over whole rows, in fractions without bound, and that it fits in
128 bits is judged apart.
"""
import argparse
import random
from fractions import Fraction as F

from draw_batches import Refused, apply

NAMES = ["FIRST", "SECOND"]


def pivot_of(rows, down, across):
    """The pivot of the active part, or None."""
    pairs = [(g, h) for g in across for h in down if rows[h][g]]

    def cost(g, h):
        return (sum(1 for k in across if rows[h][k]) - 1) * (sum(1 for k in down if rows[k][g]) - 1)

    return min(pairs, key=lambda pair: (cost(*pair), pair), default=None)


def steps_of(columns):
    """The texts of the steps, or the text of the fault."""
    m = len(columns)
    rows = [[column[h] for column in columns] for h in range(m)]
    down, across, steps = list(range(m)), list(range(m)), []
    while down:
        found = pivot_of(rows, down, across)
        if found is None:
            return f"singular {across[0]}"
        place, row = found
        kept = [rows[row][g] if g in across else F(0) for g in range(m)]
        down.remove(row)
        across.remove(place)
        multipliers = [F(0)] * m
        try:
            for h in down:
                factor = apply("/", rows[h][place], kept[place])
                for g in across:
                    rows[h][g] = apply("-", rows[h][g], apply("*", factor, kept[g]))
                multipliers[h] = factor
        except Refused as refused:
            return f"refused {refused}"
        steps.append(f"{row} {place} | {' '.join(map(str, kept))} | {' '.join(map(str, multipliers))};")
    return "".join(steps)


def entry(draw, kind):
    """A member: mostly 0 in a sparse matrix, of few values where differences are to vanish, or of any size."""
    if kind == "sparse" and draw.random() < 0.7:
        return F(0)
    if kind == "units":
        return F(draw.choice([-1, 0, 1]))
    if kind == "vast":
        if draw.random() < 0.3:
            return F(draw.choice([1, -1]) * (2 ** 127 - draw.randint(1, 9)), draw.choice([1, 1, 3, 7]))
        return F(draw.randint(-9, 9), draw.choice([1, 1, 10 ** 9]))
    return F(draw.choice([-3, -2, -1, 1, 1, 2, 3]), draw.choice([1, 1, 1, 2]))


def draw_matrix(draw, m, kind):
    """A matrix with an entry in each row and each column; of two dependent columns one is twice the other."""
    columns = [[entry(draw, kind) for _ in range(m)] for _ in range(m)]
    for column, row in zip(columns, draw.sample(range(m), m)):
        column[row] = column[row] or F(1)
    if kind == "dependent":
        left, right = draw.sample(range(m), 2)
        columns[left] = [2 * x for x in columns[right]]
    return columns


TABLE = """\
//! Drawn matrices, by columns, with the steps that are due of each, written by another program
//! (`tools/draw_matrices.py --seed {seed} --count {count} --rust`), which works them out in fractions without bound.

use crate::tests::Case;
"""


def print_table(cases, seed):
    if len(cases) % len(NAMES):
        raise SystemExit(f"--rust takes a --count that {len(NAMES)} divides")
    print(TABLE.format(seed=seed, count=len(cases)), end="")
    each = len(cases) // len(NAMES)
    for k, name in enumerate(NAMES):
        print(f"\npub(crate) const {name}: [Case; {each}] = [")
        for columns, due in cases[k * each : (k + 1) * each]:
            size = columns.count("|") + 1
            print(f'    Case {{\n        size: {size},\n        columns: "{columns}",\n        due: "{due}",\n    }},')
        print("];")


def main():
    words = argparse.ArgumentParser(description=__doc__, formatter_class=argparse.RawDescriptionHelpFormatter)
    words.add_argument("--seed", type=int, required=True)
    words.add_argument("--count", type=int, default=24)
    words.add_argument("--rust", action="store_true", help="print the table that pami_dense tests")
    words = words.parse_args()
    draw = random.Random(words.seed)
    kinds = ["sparse", "full", "units", "vast", "sparse", "dependent"]
    cases = []
    for k in range(words.count):
        kind = kinds[k % len(kinds)]
        columns = draw_matrix(draw, 2 + k % (4 if kind == "vast" else 7), kind)
        cases.append(("|".join(" ".join(map(str, column)) for column in columns), steps_of(columns)))
    if words.rust:
        print_table(cases, words.seed)
    else:
        for columns, due in cases:
            print(f"{columns} = {due}")


if __name__ == "__main__":
    main()
