"""Times `pami solve` beside two exact solvers on the models of models.py: solve.py PROGRAM FOLDER RUNS."""
import json
import shlex
import shutil
import statistics
import subprocess
import sys
import time
from fractions import Fraction

import models

# A first run that takes longer than this many seconds is the only one, and one past the second number is stopped.
LONG, TOO_LONG = 5, 120


def first_run(words):
    """The seconds of one run and what it printed; None for a run that was stopped."""
    begun = time.perf_counter()
    try:
        done = subprocess.run(words, stdout=subprocess.PIPE, stderr=subprocess.DEVNULL, timeout=TOO_LONG)
    except subprocess.TimeoutExpired:
        return None
    return time.perf_counter() - begun, done.stdout.decode()


def median_of(words, runs, folder):
    """The median of several runs: by hyperfine, or by a clock around each."""
    if shutil.which("hyperfine"):
        kept = folder + "/hyperfine.json"
        subprocess.run(["hyperfine", "--shell=none", "--ignore-failure", "--style", "none", "--runs", str(runs),
                        "--export-json", kept, shlex.join(words)], check=True, stdout=subprocess.DEVNULL,
                       stderr=subprocess.DEVNULL)
        with open(kept) as file:
            return json.load(file)["results"][0]["median"]
    seconds = [run[0] for run in (first_run(words) for _ in range(runs)) if run]
    return statistics.median(seconds) if seconds else TOO_LONG


def measured(words, runs, folder):
    """The median seconds of a program and what its first run printed; None where that run was stopped."""
    first = first_run(words)
    if first is None or first[0] > LONG or runs == 1:
        return first
    return median_of(words, runs, folder), first[1]


def value_behind(text, word):
    """The words behind the first line that begins with a word."""
    for line in text.splitlines():
        if line.split()[:1] == [word]:
            return line.split()[1:]
    return []


def solution(path):
    try:
        with open(path) as file:
            return file.read()
    except OSError:
        return ""


def pami_answer(text):
    """The answer's words, the objective where there is one, the count of pivots."""
    answer = value_behind(text, "answer") or [text.strip() or "nothing"]
    objective = value_behind(text, "objective")
    value = Fraction(objective[0]) if objective and objective[0] != "wide" else None
    return answer, value, sum(line.startswith("pivot ") for line in text.splitlines())


def glpsol_value(path):
    text = solution(path)
    return Fraction(value_behind(text, "Objective:")[2]) if value_behind(text, "Status:") == ["OPTIMAL"] else None


def esolver_value(path):
    text = solution(path)
    return Fraction(value_behind(text, "Value")[1]) if "status OPTIMAL" in text.splitlines() else None


def near(left, right):
    return abs(left - right) <= max(1, abs(left)) / 10**8


def equal(left, right):
    return left == right


# Each solver: its name, its package, its words for a model and a file of its solution, the objective that it wrote
# there, and how far that has to agree: glpsol solves with exact numbers, but prints few digits.
OTHERS = [
    ("glpsol", "glpk-utils", lambda model, out: ["glpsol", "--exact", "--freemps", model, "-o", out], glpsol_value, near),
    ("esolver", "qsopt-ex", lambda model, out: ["esolver", "-O", out, model], esolver_value, equal),
]


def main(program, folder, runs):
    present = []
    for other in OTHERS:
        if shutil.which(other[0]):
            present.append(other)
        else:
            print("%s is missing (Debian package %s): no ratio" % other[:2])
    clock = "hyperfine" if shutil.which("hyperfine") else "a clock around each, as hyperfine is missing"
    print("seconds: the median of %d runs, by %s; one run where it takes more than %d" % (runs, clock, LONG))
    print("ratio: the seconds of pami over those of the other program\n")
    head = "%-19s %4s %7s %7s %6s %8s" % ("model", "rows", "columns", "entries", "pivots", "pami")
    for name, *_ in present:
        head += " %8s %6s" % (name, "ratio")
    print(head + "  answer")
    differences = 0
    unexpected = 0
    for name, rows, columns, entries in models.write_all(folder):
        model = "%s/%s.mps" % (folder, name)
        ours = measured([program, "solve", model], runs, folder)
        answer, value, pivots = pami_answer(ours[1]) if ours else (["stopped"], None, 0)
        line = "%-19s %4d %7d %7d %6d %8s" % (name, rows, columns, entries, pivots, "%.3f" % ours[0] if ours else "> %d" % TOO_LONG)
        told = [" ".join(answer[:2]) if answer[0] == "overflow" else answer[0]]
        # Each model has an optimum, and no cost below 0.
        unexpected += answer[0] not in ("optimal", "overflow", "limit", "stopped")
        for other, _, words, value_of, agrees in present:
            out = "%s/%s.%s" % (folder, name, other)
            theirs = measured(words(model, out), runs, folder)
            seconds = "%.3f" % theirs[0] if theirs else "> %d" % TOO_LONG
            line += " %8s %6s" % (seconds, "%.2f" % (ours[0] / theirs[0]) if ours and theirs else "-")
            found = value_of(out) if theirs else None
            if value is not None and found is not None:
                differences += not agrees(value, found)
                told.append("%s %s" % (other, "agrees" if agrees(value, found) else "DIFFERS: %s" % found))
            elif value is not None:
                told.append("%s has no value" % other)
        print("%s  %s" % (line, ", ".join(told)), flush=True)
    if differences:
        print("\n%d objective values differ" % differences)
    if unexpected:
        print("\n%d answers can't be" % unexpected)
    return 1 if differences or unexpected else 0


if __name__ == "__main__":
    if len(sys.argv) != 4:
        sys.exit("solve.py PROGRAM FOLDER RUNS")
    sys.exit(main(sys.argv[1], sys.argv[2], int(sys.argv[3])))
