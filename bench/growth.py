"""Times `pami solve` on transport models of 32 to 256 rows: growth.py PROGRAM FOLDER RUNS COUNT."""
import os
import re
import shutil
import subprocess
import sys

import models
import solve

# eight sources each, so that entries grow with the rows
SINKS = [24, 56, 120, 248]
SOURCES, SEED = 8, 11


def instructions(program, model, folder):
    """How many instructions a run makes; None where callgrind doesn't say."""
    kept = os.path.join(folder, "callgrind")
    done = subprocess.run(["valgrind", "--tool=callgrind", "--callgrind-out-file=" + kept, program, "solve", model],
                          stdout=subprocess.DEVNULL, stderr=subprocess.PIPE)
    found = re.search(r"Collected : (\d+)", done.stderr.decode())
    return int(found.group(1)) if found else None


def main(program, folder, runs, counting):
    if counting and not shutil.which("valgrind"):
        print("valgrind is missing (Debian package valgrind): no instructions")
        counting = False
    print("%5s %8s %8s %7s %9s %10s %12s %14s  answer"
          % ("rows", "columns", "entries", "pivots", "seconds", "us/pivot", "us/pivot/row", "instr./pivot"))
    for sinks in SINKS:
        name, rows, columns = models.transport(SOURCES, sinks, SEED)
        model = os.path.join(folder, name + ".mps")
        with open(model, "w") as file:
            file.write(models.text_of(name, rows, columns))
        entries = sum(len(members) for _, _, members in columns)
        done = solve.measured([program, "solve", model], runs, folder)
        if done is None:
            print("%5d %8d %8d: stopped" % (len(rows), len(columns), entries), flush=True)
            continue
        seconds, text = done
        answer, _, pivots = solve.pami_answer(text)
        each = 1e6 * seconds / max(pivots, 1)
        made = instructions(program, model, folder) if counting else None
        print("%5d %8d %8d %7d %9.4f %10.1f %12.2f %14s  %s"
              % (len(rows), len(columns), entries, pivots, seconds, each, each / len(rows),
                 "%d" % (made / max(pivots, 1)) if made else "-", " ".join(answer)), flush=True)
    return 0


if __name__ == "__main__":
    if len(sys.argv) != 5:
        sys.exit("growth.py PROGRAM FOLDER RUNS COUNT")
    sys.exit(main(sys.argv[1], sys.argv[2], int(sys.argv[3]), sys.argv[4] == "yes"))
