#!/usr/bin/env python3
"""Lets modelling tools write small models, and runs a program and an exact judge on what they wrote.

tool_files.py PROGRAM.. runs `PROGRAM solve FILE` and `esolver` (Debian package qsopt-ex) on each model below as PuLP
(python3-pulp), `glpsol` (glpk-utils), `cbc` (coinor-cbc) and `lp_solve` (lp-solve) write it, in their dialects of LP
and MPS, and as this script writes it itself. The name of a file ends in .lp or .mps. A line says what both answer:
`same`, `differs`, or why there is nothing to compare; and where a file isn't the model that the tool was given, what it
lost or changed. A tool that is missing is named and left out. Ends with 1 where both answer and differ, or where a file
of the script itself gets another answer than the one due.

In LP the judge reads neither a constant nor a row of two relations. And `cbc` writes a column with an upper bound and
no lower one as `y <= -3` and then `y Free`, which it and the judge read as that upper bound, but `glpsol` and the
format of this repository as no bound: a program that solves such a file is known to differ from the judge.
"""
import collections
import copy
import functools
import gzip
import json
import os
import re
import shutil
import sys
import tempfile
from decimal import Decimal
from fractions import Fraction

sys.dont_write_bytecode = True
TOP = os.path.dirname(os.path.dirname(os.path.realpath(__file__)))
sys.path.insert(1, TOP + "/bench")
from real import ENDS, TRANSLATION_SECONDS, compared, finish, judged, read, said_by, short  # noqa: E402

TERM = re.compile(r"([+-]?) *([\d.]*) *([a-z]\w*(?:\[\w+,\w+\])?)?")
BRACKETS = re.compile(r"\[(\w+),(\w+)\]")
# Files that the judge reads as another model, by tool, dialect and model.
KNOWN = {("cbc", "lp", "below zero")}
# An answer as far from one that would be explained is explained by cut digits too.
NEAR = Fraction(1, 10**4)


def terms(text):
    """The coefficients of a sum by name, as decimals; its constant by the name ''."""
    return {name: (sign if sign == "-" else "") + (number or "1")
            for sign, number, name in TERM.findall(text) if number or name}


class Model:
    """A linear model: the answer that is due, worked out by hand; sense, objective, rows (name, low, sum, high) and
    bounds by column, in decimals; and the columns that are to be whole."""

    def __init__(self, name, due, sense, goal, rows, bounds=(), whole=()):
        self.name, self.due, self.sense, self.whole = name, due, sense, list(whole)
        self.costs = terms(goal)
        self.constant = self.costs.pop("", "0")
        self.rows = [(row, low, terms(text), high) for row, low, text, high in rows]
        self.bounds = {column: ("0", None) for some in [self.costs] + [row[2] for row in self.rows] for column in some}
        self.bounds.update(bounds)


def knapsack(count, room):
    """A model of long lines, and what its best load is worth: by value for weight, the last one in part."""
    things = [("item%d" % k, 7 * k % 31 + 1, 5 * k % 17 + 1) for k in range(1, count + 1)]
    best, left = Fraction(0), Fraction(room)
    for _, value, weight in sorted(things, key=lambda it: Fraction(-it[1], it[2])):
        part = min(Fraction(1), left / weight)
        best, left = best + part * value, left - part * weight
    load = " + ".join("%d %s" % (weight, name) for name, _, weight in things)
    return Model("long lines", best, "max", " + ".join("%d %s" % (value, name) for name, value, _ in things),
                 [("load", None, load, str(room))], {name: ("0", "1") for name, _, _ in things})


MODELS = [
    Model("planning", Fraction(13), "max", "5 x + 4 y + 3 z",
          [("wood", None, "2 x + 3 y + z", "5"), ("hours", None, "4 x + y + 2 z", "11"),
           ("glue", None, "3 x + 4 y + 2 z", "8")]),
    Model("blend", Fraction(1193, 14), "min", "0.6 maize + 1.1 soy + 0.85 fish",
          [("mass", "100", "maize + soy + fish", "100"), ("protein", "30", "0.09 maize + 0.44 soy + 0.6 fish", None),
           ("fibre", None, "0.02 maize + 0.06 soy", "5")], {"fish": ("0", "10")}),
    Model("transport", Fraction(185), "min", "4 s[a,p] + 6 s[a,q] + 9 s[a,r] + 5 s[b,p] + 3 s[b,q] + 2 s[b,r]",
          [("a", None, "s[a,p] + s[a,q] + s[a,r]", "30"), ("b", None, "s[b,p] + s[b,q] + s[b,r]", "40"),
           ("p", "20", "s[a,p] + s[b,p]", "20"), ("q", "25", "s[a,q] + s[b,q]", "25"),
           ("r", "15", "s[a,r] + s[b,r]", "15")]),
    Model("ranges", Fraction(19, 2), "min", "2 x + 3 y", [("sum", "4", "x + y", "10"), ("gap", "-2", "x - y", "1")]),
    Model("free", Fraction(-1), "min", "t", [("up", "-5", "t - 2 x", None), ("down", "1", "t + x", None)],
          {"t": (None, None), "x": (None, None)}),
    Model("below zero", Fraction(-9, 2), "max", "x + 2 y + z",
          [("gap", "0.5", "x - y", None), ("sum", None, "y + z", "0.5")],
          {"x": ("-7", "-2"), "y": (None, "-3"), "z": ("0", "4")}),
    Model("equal", Fraction(73, 4), "min", "x + 2 y + 3 w",
          [("sum", "10", "x + y + w", "10"), ("gap", "1", "x - y", "1")], {"w": ("2.5", "2.5")}),
    Model("constant", Fraction(49, 4), "min", "1.5 x + 2 y + 7.25",
          [("sum", "3", "x + y", None), ("least", "0.5", "y", None)], {"x": ("0", "2")}),
    Model("max, constant", Fraction(-3, 2), "max", "3 x + 2 y - 12.5",
          [("sum", None, "x + y", "4"), ("tilt", None, "x + 3 y", "6")], {"x": ("0", "3")}),
    Model("infeasible", "infeasible", "min", "x + y", [("sum", None, "x + y", "2"), ("tilt", "5", "x + 2 y", None)],
          {"y": ("0", "1")}),
    Model("unbounded", "dual-infeasible", "max", "x + y", [("gap", None, "x - y", "1")]),
    # y = 1 / 1.23456789012345 and x = 3.3 - 1.1 y: at these both rows are tight, and each has a price above 0.
    Model("many digits", Fraction("0.1") * (Fraction("3.3") - Fraction("1.1") / Fraction("1.23456789012345"))
          + Fraction("12.3456789012345") / Fraction("1.23456789012345"), "min", "0.1 x + 12.3456789012345 y",
          [("sum", "3.3", "x + 1.1 y", None), ("part", "1", "1.23456789012345 y", None)]),
    # A column in no row, and no costs at all.
    Model("loose column", Fraction(3), "min", "x + y + v", [("sum", "2", "x + y", None)], {"v": ("1", "3")}),
    Model("no costs", Fraction(0), "min", "", [("sum", "2", "x + y", None), ("gap", "1", "x - y", "1")]),
    Model("long names", Fraction(7, 2), "min", "flour_of_the_bakery + flour_of_the_baker",
          [("need_of_a_long_week", "7", "2 flour_of_the_bakery + flour_of_the_baker", None),
           ("need_of_a_long_weekend", "1", "flour_of_the_bakery + 3 flour_of_the_baker", None)]),
    knapsack(36, 90),
    Model("whole", Fraction(5), "max", "x + y", [("sum", None, "2 x + 2 y", "11")], whole=["x", "y"]),
]


def sides(low, text, high):
    """A relation with one side, two sides or one value."""
    if low is not None and low == high:
        return "%s = %s" % (text, low)
    if low is not None and high is not None:
        return "%s <= %s <= %s" % (low, text, high)
    return "%s <= %s" % (text, high) if low is None else "%s >= %s" % (text, low)


def summed(some, between=" "):
    return " ".join("%s %s%s%s" % ("-" if value.startswith("-") else "+", value.lstrip("-"), between, name)
                    for name, value in some.items())


def lp_text(model):
    """A model in LP, without what only some dialects have."""
    lines = ["Maximize" if model.sense == "max" else "Minimize",
             " cost: " + summed(model.costs) + ("" if model.constant == "0" else " " + summed({"": model.constant})),
             "Subject To"]
    lines += [" %s: %s" % (row, sides(low, summed(some), high)) for row, low, some, high in model.rows]
    lines += ["Bounds"]
    for column, (low, high) in model.bounds.items():
        if (low, high) == (None, None):
            lines.append(" %s free" % column)
        elif (low, high) != ("0", None):
            lines.append(" " + sides("-inf" if low is None else low, column, high))
    lines += ["General", " " + " ".join(model.whole)] if model.whole else []
    return BRACKETS.sub(r"(\1,\2)", "\n".join(lines + ["End", ""]))


def mps_text(model, has_sense=True):
    """A model in MPS, in the fixed layout where the numbers are short enough."""
    pair, bound = "    %-8s  %-8s  %12s", " %s BND       %-8s  %12s"
    lines = ["NAME          MODEL"] + (["OBJSENSE", "    MAX"] if has_sense and model.sense == "max" else [])
    kinds = {row: "E" if low == high else "G" if high is None else "L" for row, low, _, high in model.rows}
    lines += ["ROWS", " N  cost"] + [" %s  %s" % (kind, row) for row, kind in kinds.items()] + ["COLUMNS"]
    lines += ["    M1        'MARKER'                 'INTORG'"] if model.whole else []
    for column in model.bounds:
        entries = [("cost", model.costs)] + [(row, some) for row, _, some, _ in model.rows]
        lines += [pair % (column, row, some[column]) for row, some in entries if column in some]
    lines += ["    M2        'MARKER'                 'INTEND'"] if model.whole else []
    lines += ["RHS"]
    lines += [pair % ("RHS", "cost", -Decimal(model.constant))] if model.constant != "0" else []
    lines += [pair % ("RHS", row, low if kinds[row] == "G" else high) for row, low, _, high in model.rows]
    lines += ["RANGES"]
    lines += [pair % ("RNG", row, Decimal(high) - Decimal(low)) for row, low, _, high in model.rows
              if kinds[row] == "L" and low is not None]
    lines += ["BOUNDS"]
    for column, (low, high) in model.bounds.items():
        if (low, high) == (None, None):
            lines.append(bound % ("FR", column, ""))
        elif low == high:
            lines.append(bound % ("FX", column, low))
        else:
            lines += [bound % ("MI", column, "")] if low is None else []
            lines += [bound % ("LO", column, low)] if low not in (None, "0") else []
            lines += [bound % ("UP", column, high)] if high is not None else []
    return BRACKETS.sub(r"(\1,\2)", "\n".join(line.rstrip() for line in lines + ["ENDATA", ""]))


def mathprog_text(model):
    """A model in GNU MathProg; columns with indices are those of one set of pairs."""
    lines = []
    for column, (low, high) in model.bounds.items():
        whole = ", integer" if column in model.whole else ""
        if "[" not in column:
            known = ["= %s" % low] if low is not None and low == high else \
                [sign + " " + side for sign, side in ((">=", low), ("<=", high)) if side is not None]
            lines.append("var %s%s%s;" % (column, whole, "".join(", " + it for it in known)))
    pairs = ["('%s','%s')" % pair for pair in BRACKETS.findall(" ".join(model.bounds))]
    lines += ["set PAIRS := {%s};" % ", ".join(pairs), "var s{PAIRS} >= 0;"] if pairs else []
    goal = dict(model.costs) if model.constant == "0" else {**model.costs, "1": model.constant}
    lines.append("%s cost: %s;" % ({"min": "minimize", "max": "maximize"}[model.sense], summed(goal, " * ") or "0"))
    lines += ["s.t. %s: %s;" % (row, sides(low, summed(some, " * "), high)) for row, low, some, high in model.rows]
    return BRACKETS.sub(r"['\1','\2']", "\n".join(lines + ["solve;", "end;", ""]))


def own_text(model):
    """A model in the language of lp_solve."""
    goal = summed(model.costs) + ("" if model.constant == "0" else " " + summed({"": model.constant}))
    lines = ["%s: %s;" % (model.sense, goal)]
    lines += ["%s: %s;" % (row, sides(low, summed(some), high)) for row, low, some, high in model.rows]
    for column, (low, high) in model.bounds.items():
        if low is None or high is not None or low != "0":
            lines.append("%s;" % sides("-1e30" if low is None else low, column, high))
    lines += ["int %s;" % ", ".join(model.whole)] if model.whole else []
    return BRACKETS.sub(r"[\1.\2]", "\n".join(lines + [""]))


# What PuLP is told by a Python that has it: models from a file, each written as LP and as MPS.
PULP = """
import json, sys
import pulp
for at, it in enumerate(json.load(open(sys.argv[1]))):
    problem = pulp.LpProblem("model", pulp.LpMaximize if it["sense"] == "max" else pulp.LpMinimize)
    number = lambda side: None if side is None else float(side)
    columns = {name: pulp.LpVariable(name, number(low), number(high),
                                     pulp.LpInteger if name in it["whole"] else pulp.LpContinuous)
               for name, (low, high) in it["bounds"].items()}
    total = lambda some: pulp.lpSum(float(value) * columns[name] for name, value in some.items())
    problem += total(it["costs"]) + float(it["constant"])
    for row, low, some, high in it["rows"]:
        if low is not None and low == high:
            problem += total(some) == float(low), row
            continue
        if high is not None:
            problem += total(some) <= float(high), row
        if low is not None:
            problem += total(some) >= float(low), row + ("" if high is None else "_low")
    problem.writeLP("%s/%d.PuLP.lp" % (sys.argv[2], at))
    problem.writeMPS("%s/%d.PuLP.mps" % (sys.argv[2], at))
"""


def put(path, text):
    with open(path, "w", encoding="ascii") as file:
        file.write(text)
    return path


# Each of the following lets a tool write all models into a folder, as NUMBER.TOOL.ENDING, and says whether there is
# such a tool.
def by_script(folder):
    for at, model in enumerate(MODELS):
        put("%s/%d.script.lp" % (folder, at), lp_text(model))
        put("%s/%d.script.mps" % (folder, at), mps_text(model))
    return True


def by_pulp(folder):
    pythons = [python for python in (sys.executable, "/usr/bin/python3")
               if (finish([python, "-c", "import pulp"], TRANSLATION_SECONDS) or [1])[0] == 0]
    if not pythons:
        return False
    told = [{part: getattr(model, part) for part in ("sense", "costs", "constant", "rows", "bounds", "whole")}
            for model in MODELS]
    finish([pythons[0], "-c", PULP, put(folder + "/models.json", json.dumps(told)), folder], TRANSLATION_SECONDS)
    return True


def by_glpsol(folder):
    if shutil.which("glpsol") is None:
        return False
    for at, model in enumerate(MODELS):
        path, to = put("%s/%d.mod" % (folder, at), mathprog_text(model)), "%s/%d.glpsol." % (folder, at)
        finish(["glpsol", "--check", "--math", path, "--wlp", to + "lp", "--wmps", to + "mps",
                "--wfreemps", to + "free.mps"], TRANSLATION_SECONDS)
    return True


def by_cbc(folder):
    """Reads MPS of this script, and is told of a maximum, as it passes OBJSENSE over."""
    if shutil.which("cbc") is None:
        return False
    for at, model in enumerate(MODELS):
        path, to = put("%s/%d.cbc.in" % (folder, at), mps_text(model, has_sense=False)), "%s/%d.cbc." % (folder, at)
        for kind in ("lp", "mps"):
            finish(["cbc", path] + ["-max"] * (model.sense == "max")
                   + ["-presolve", "off", "-export", to + kind, "-quit"], TRANSLATION_SECONDS)
        if os.path.exists(to + "mps.gz"):
            with gzip.open(to + "mps.gz") as packed, open(to + "mps", "wb") as file:
                shutil.copyfileobj(packed, file)
    return True


def by_lp_solve(folder):
    if shutil.which("lp_solve") is None:
        return False
    for at, model in enumerate(MODELS):
        path, to = put("%s/%d.lp_solve.in" % (folder, at), own_text(model)), "%s/%d.lp_solve." % (folder, at)
        finish(["lp_solve", "-S0", "-parse_only", path, "-wlp", to + "own.lp", "-wmps", to + "mps",
                "-wfmps", to + "free.mps"], TRANSLATION_SECONDS)
    return True


# The tools: the Debian package of each, what lets it write the models, and the endings of what it writes.
TOOLS = [("script", None, by_script, ["lp", "mps"]),
         ("PuLP", "python3-pulp", by_pulp, ["lp", "mps"]),
         ("glpsol", "glpk-utils", by_glpsol, ["lp", "mps", "free.mps"]),
         ("cbc", "coinor-cbc", by_cbc, ["lp", "mps"]),
         ("lp_solve", "lp-solve", by_lp_solve, ["own.lp", "mps", "free.mps"])]


@functools.lru_cache(maxsize=None)
def answers(model, folder):
    """The model's answer, and those that the judge gives it without its sense or an upper bound, with the cause."""
    unbound = copy.copy(model)
    unbound.bounds = {column: (low, None if low is None else high) for column, (low, high) in model.bounds.items()}
    found = [("", model.due)]
    for why, text in (("the sense is lost", mps_text(model, has_sense=False)),
                      ("a column without a lower bound loses its upper one", mps_text(unbound))):
        said = judged(put(folder + "/changed.mps", text), folder + "/judge.sol") if text != mps_text(model) else None
        found += [(why, ENDS.get(said[0]) if said[1] is None else said[1])] if said is not None else []
    return found


def lost(model, answer, folder):
    """What a file lost or changed that has this answer instead of the model's; '' where it has the model's."""
    constant, near = Fraction(model.constant), ""
    if answer == model.due:
        return ""
    for first, base in answers(model, folder):
        for turned, sign in (("", 1), ("a minimum of the negated costs", -1)):
            for part, times in (("", 0), ("the constant is lost", 1), ("the constant has the other sign", 2)):
                if isinstance(base, Fraction) and isinstance(answer, Fraction) and (constant or not times):
                    why = ", ".join(it for it in (first, turned, part) if it)
                    gap = abs(answer - sign * (base - times * constant))
                    if gap == 0:
                        return why
                    near = near or (gap <= NEAR and ", ".join(it for it in (why, "digits are cut") if it))
        if base == answer:
            return first
    return near or "ANOTHER MODEL"


def line_at(path, number):
    lines = read(path).decode(errors="replace").splitlines()
    return lines[number - 1].strip() if 0 < number <= len(lines) else ""


def why_refused(model, kind, path, words):
    if model.whole and "integer" in words:
        return "whole columns aren't taken"
    if kind == "own.lp":
        return "a language of its own, refused by design"
    line = words.split()[1:2]
    return "its line: " + short(line_at(path, int(line[0])) if line and line[0].isdigit() else "", 60)


def row_of(model, kind, path, folder, program):
    """What a line of the table says of a file: the program's answer, the judge's, how they stand, and what was lost."""
    answer, words, value, _ = said_by(program, path)
    # The judge takes whole columns for others.
    said = None if model.whole else judged(path, folder + "/judge.sol")
    says = "-" if said is None else str(said[1]) if said[1] is not None else ENDS.get(said[0], said[0])
    if answer == "refused":
        return words, says, "refused", why_refused(model, kind, path, words)
    if answer not in ENDS.values():
        # What was lost is told by the judge's answer here.
        what = lost(model, says if said[1] is None else said[1], folder) if said and said[0] in ENDS else ""
        return words, says, "needs phase one" if answer == "needs" else answer, what
    stand = compared(answer, value, said)
    stand = "differs" if stand.startswith("DIFFERS") else "same" if stand.startswith("the same") else "not judged"
    return words, says, stand, lost(model, answer if value is None else value, folder)


def main(folder, program):
    if shutil.which("esolver") is None:
        print("esolver is missing (Debian package qsopt-ex): no answer is judged, and no lost sense is known")
    counts, losses, failed = collections.Counter(), collections.Counter(), 0
    form = "%-8s %-8s %-13s %-36s %-36s %-16s %s"
    print(form % ("tool", "dialect", "model", "the program", "esolver", "", "what else"))
    for tool, package, write, kinds in TOOLS:
        if not write(folder):
            print("%s is missing (Debian package %s): left out" % (tool, package))
            continue
        for kind in kinds:
            for at, model in enumerate(MODELS):
                path = "%s/%d.%s.%s" % (folder, at, tool, kind)
                dialect = kind.replace(".mps", " mps").replace(".lp", " lp")
                if not os.path.exists(path):
                    counts["not written"] += 1
                    print(form % (tool, dialect, model.name, "-", "-", "not written", ""))
                    continue
                words, says, stand, what = row_of(model, kind, path, folder, program)
                words = words.replace("optimal ", "")
                if stand == "differs" and (tool, dialect, model.name) in KNOWN:
                    stand = "known to differ"
                print((form % (tool, dialect, model.name, short(words, 36), short(says, 36), stand, what)).rstrip(),
                      flush=True)
                counts[stand] += 1
                losses[what if stand != "refused" else ""] += 1
                failed |= stand == "differs" or tool == "script" and bool(what) and stand != "refused"
    print("\n%d files of %d models: %s" % (sum(counts.values()), len(MODELS),
                                         ", ".join("%d %s" % (many, it) for it, many in counts.most_common())))
    for what, many in losses.most_common():
        if what:
            print("%6d times: %s" % (many, what))
    return int(failed)


if __name__ == "__main__":
    if len(sys.argv) < 2:
        sys.exit("tool_files.py PROGRAM..")
    with tempfile.TemporaryDirectory() as place:
        status = main(place, sys.argv[1:])
    sys.exit(status)
