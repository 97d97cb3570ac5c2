"""Runs `pami solve` with batches of 1, 2, 4 and 8 rows on the models of models.py with 50 rows and more:
batch.py PROGRAM FOLDER SECONDS COUNT."""
import os
import re
import shutil
import subprocess
import sys
import time

import models

BATCHES = [1, 2, 4, 8]
LEAST_ROWS = 50


def run(program, model, batch, most):
    """The seconds of a run and its text; None for a run that was stopped."""
    begun = time.perf_counter()
    try:
        done = subprocess.run([program, "solve", model, "--batch", str(batch)], stdout=subprocess.PIPE,
                              stderr=subprocess.DEVNULL, timeout=most)
    except subprocess.TimeoutExpired:
        return None
    return time.perf_counter() - begun, done.stdout.decode()


def instructions(program, model, batch, folder):
    """How many instructions a run makes, in millions; None where callgrind doesn't say."""
    kept = os.path.join(folder, "callgrind")
    done = subprocess.run(["valgrind", "--tool=callgrind", "--callgrind-out-file=" + kept, program, "solve", model,
                           "--batch", str(batch)], stdout=subprocess.DEVNULL, stderr=subprocess.PIPE)
    found = re.search(r"Collected : (\d+)", done.stderr.decode())
    return int(found.group(1)) / 1e6 if found else None


def told(text):
    """The answer's first word, and the counts of pivots, majors and rollbacks."""
    lines = [line.split() for line in text.splitlines()]
    counts = [sum(line[:1] == [word] for line in lines) for word in ("pivot", "major", "rollback")]
    answers = [line[1] for line in lines if line[:1] == ["answer"]]
    return (answers or ["nothing"])[0], *counts


def main(program, folder, most, counting):
    if counting and not shutil.which("valgrind"):
        print("valgrind is missing (Debian package valgrind): no instructions")
        counting = False
    print("ratio: to the seconds of batch 1 on the same model\n")
    print("%-19s %5s %9s %6s %7s %7s %9s %12s  answer"
          % ("model", "batch", "seconds", "ratio", "pivots", "majors", "rollbacks", "instructions"))
    for name, *_ in models.write_all(folder, LEAST_ROWS):
        model = os.path.join(folder, name + ".mps")
        first = None
        for batch in BATCHES:
            done = run(program, model, batch, most)
            if done is None:
                print("%-19s %5d %9s" % (name, batch, "> %d" % most), flush=True)
                continue
            seconds, text = done
            if batch == 1:
                first = seconds
            answer, pivots, majors, rollbacks = told(text)
            million = instructions(program, model, batch, folder) if counting else None
            print("%-19s %5d %9.3f %6s %7d %7d %9d %12s  %s"
                  % (name, batch, seconds, "%.2f" % (seconds / first) if first else "-", pivots, majors, rollbacks,
                     "%.0f M" % million if million else "-", answer), flush=True)
    return 0


if __name__ == "__main__":
    if len(sys.argv) != 5:
        sys.exit("batch.py PROGRAM FOLDER SECONDS COUNT")
    sys.exit(main(sys.argv[1], sys.argv[2], float(sys.argv[3]), sys.argv[4] == "yes"))
