"""Linear equations in unbounded fractions, solved by a sparse elimination over whole numbers."""

from __future__ import annotations

import math
from fractions import Fraction

# The key of an equation's right-hand side beside the numbers of its unknowns.
RIGHT = -1


def solved(equations: list[dict[int, Fraction]]) -> dict[int, Fraction] | None:
    """The one solution of as many equations as unknowns, or None where there isn't just one.

    An equation has its entries by the numbers of the unknowns, and its right-hand side at `RIGHT`. Each is multiplied
    until its numbers are whole, and divided by what they have in common, so no fraction is made before the unknowns
    are. The equation with the fewest entries is next, and in it the unknown that the fewest others have.
    """
    rows = [_whole(equation) for equation in equations]
    places: dict[int, set[int]] = {}
    for number, row in enumerate(rows):
        for unknown in row.keys() - {RIGHT}:
            places.setdefault(unknown, set()).add(number)
    left = set(range(len(rows)))
    order: list[tuple[int, dict[int, int]]] = []
    while left:
        number = min(left, key=lambda it: (len(rows[it].keys() - {RIGHT}), it))
        row = rows[number]
        if not row.keys() - {RIGHT}:
            return None
        unknown = min(row.keys() - {RIGHT}, key=lambda it: (len(places[it]), it))
        left.remove(number)
        for it in row.keys() - {RIGHT}:
            places[it].discard(number)
        for other in places[unknown]:
            rows[other] = _without(rows[other], row, unknown, other, places)
        order.append((unknown, row))
    values: dict[int, Fraction] = {}
    for unknown, row in reversed(order):
        known = sum((entry * values[it] for it, entry in row.items() if it not in (unknown, RIGHT)), Fraction(0))
        values[unknown] = (row.get(RIGHT, 0) - known) / row[unknown]
    return values


def _whole(equation: dict[int, Fraction]) -> dict[int, int]:
    factor = math.lcm(*(value.denominator for value in equation.values()))
    return _short({it: int(value * factor) for it, value in equation.items() if value})


def _short(row: dict[int, int]) -> dict[int, int]:
    common = math.gcd(*row.values())
    return row if common <= 1 else {it: value // common for it, value in row.items()}


def _without(
    row: dict[int, int], pivot: dict[int, int], unknown: int, number: int, places: dict[int, set[int]]
) -> dict[int, int]:
    """The equation `number` less the multiple of another one that takes the unknown away. `places` follows, but for
    this unknown, which is done with.
    """
    common = math.gcd(row[unknown], pivot[unknown])
    own, other = pivot[unknown] // common, row[unknown] // common
    made = {it: own * value for it, value in row.items()}
    for it, value in pivot.items():
        total = made.get(it, 0) - other * value
        if total:
            if it not in made and it != RIGHT:
                places[it].add(number)
            made[it] = total
        elif it in made:
            del made[it]
            if it not in (unknown, RIGHT):
                places[it].discard(number)
    return _short(made)
