"""Transport models and random sparse models for solve.py and batch.py.

All data are whole numbers, no cost is below 0, and each model has a feasible point by construction. A model depends on
its numbers below alone, its seed among them. Run as a program, `models.py FOLDER` writes them all.
"""
import random
import sys

# sources, sinks, seed
TRANSPORTS = [(8, 12, 1), (15, 25, 2), (25, 35, 3), (30, 50, 4), (40, 60, 5), (30, 120, 6), (16, 240, 7)]
# rows, columns, entries in each column, seed; with 8 entries in a column the numbers of a basis grow long
SPARSE = [(20, 60, 3, 1), (40, 120, 3, 2), (40, 80, 8, 7), (60, 180, 3, 3), (60, 120, 8, 9), (80, 240, 3, 4), (100, 300, 3, 5),
          (150, 300, 2, 6), (256, 512, 2, 8)]


def text_of(name, rows, columns):
    """A model as MPS lines: rows are (type, name, right-hand side), columns are (name, cost, [(row, value)])."""
    lines = ["NAME " + name, "ROWS", " N cost"]
    lines += [" %s %s" % (kind, row) for kind, row, _ in rows]
    lines.append("COLUMNS")
    for column, cost, entries in columns:
        lines.append(" %s cost %d" % (column, cost))
        lines += [" %s %s %d" % (column, row, value) for row, value in entries]
    lines.append("RHS")
    lines += [" rhs %s %d" % (row, side) for _, row, side in rows]
    return "\n".join(lines + ["ENDATA", ""])


def transport(sources, sinks, seed):
    """Ships from sources with a supply (at most) to sinks with a demand (at least); supply is enough for all demand."""
    draw = random.Random(seed)
    demands = [draw.randint(1, 50) for _ in range(sinks)]
    supplies = [-(-sum(demands) // sources) + draw.randint(0, 10) for _ in range(sources)]
    rows = [("L", "source%d" % i, supply) for i, supply in enumerate(supplies)]
    rows += [("G", "sink%d" % j, demand) for j, demand in enumerate(demands)]
    columns = []
    for i in range(sources):
        for j in range(sinks):
            columns.append(("ship%d_%d" % (i, j), draw.randint(1, 100), [("source%d" % i, 1), ("sink%d" % j, 1)]))
    return "transport_%dx%d" % (sources, sinks), rows, columns


def sparse(count, width, entries, seed):
    """Rows of all types whose sides leave room for, or are met by, a point that is drawn first."""
    draw = random.Random(seed)
    sums = [0] * count
    columns = []
    for j in range(width):
        value = draw.choice([0, 0, draw.randint(1, 9)])
        members = []
        for i in sorted(draw.sample(range(count), entries)):
            entry = draw.choice([-3, -2, -1, 1, 2, 3, 4, 5])
            sums[i] += entry * value
            members.append(("row%d" % i, entry))
        columns.append(("col%d" % j, draw.randint(0, 40), members))
    rows = []
    for i in range(count):
        kind = draw.choice("GGLLE")
        room = draw.randint(0, 5)
        rows.append((kind, "row%d" % i, sums[i] + {"G": -room, "L": room, "E": 0}[kind]))
    return "sparse_%dx%d_%d" % (count, width, entries), rows, columns


def write_all(folder, least=0):
    """Writes each model of so many rows at least to NAME.mps, and answers (name, rows, columns, entries) of each."""
    written = []
    for name, rows, columns in [transport(*given) for given in TRANSPORTS] + [sparse(*given) for given in SPARSE]:
        if len(rows) < least:
            continue
        with open("%s/%s.mps" % (folder, name), "w") as file:
            file.write(text_of(name, rows, columns))
        written.append((name, len(rows), len(columns), sum(len(members) for _, _, members in columns)))
    return written


if __name__ == "__main__":
    if len(sys.argv) != 2:
        sys.exit("models.py FOLDER")
    write_all(sys.argv[1])
