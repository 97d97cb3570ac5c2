#!/usr/bin/env bash
# Times the reading of MPS and LP files of about 16 MB, accepted and refused ones, beside glpsol on the same files:
# read.sh [PROGRAM], by default the program that ./pami builds. Each number is the least of RUNS runs (3), which take turns.
set -eu
top=$(cd "$(dirname "${BASH_SOURCE[0]}")/.." && pwd)
folder=$(mktemp -d)
trap 'rm -rf "$folder"' EXIT

program=${1:-$top/crates/pami_cli/out/pami_cli}
if [ $# -eq 0 ]; then
    "$top/pami" solve "$top/examples/overtime.mps" >/dev/null
fi
if [ ! -x "$program" ]; then
    echo "there is no program at $program" >&2
    exit 1
fi

# `columns`: 250 rows and 4,000 columns of 240 pairs each, most of them in N rows that are dropped, so that the limit on
# entries isn't reached. `sections`: the same with a range for each row and one or two bounds for each column. `names`: the
# same again with fewer pairs, and names as long as may be. `again`: each column's bounds are written over and over. All are
# optimal at the start. `.._broken` has a name in its last line but one that no line declared. glpsol takes no second bound of
# a side in MPS, so it reads little of `again`. In LP it takes them: `terms` has 64,000 terms with short names, and each column's
# bounds are written over and over; `long_terms` has 60,000 terms with names as long as may be. In both each term has a line
# of its own, and the broken one has a value before `end` with nothing behind its relation.
python3 - "$folder" <<'PY'
import sys
folder = sys.argv[1]
rows, columns, rounds = 250, 4000, 200
short, long = "col%04d", "%04d" + 250 * "x"
sides = ["RHS"] + [" rhs row%03d 10" % i for i in range(rows)]
ranges = ["RANGES"] + [" range row%03d -12.5" % i for i in range(rows)]


def body(name, frees):
    """ROWS, COLUMNS and RHS; a column has its cost, 15 entries and a pair in each of so many N rows."""
    lines = ["NAME BENCH", "ROWS", " N cost"] + [" L row%03d" % i for i in range(rows)]
    lines += [" N free%03d" % i for i in range(frees)] + ["COLUMNS"]
    for j in range(columns):
        names = ["cost"] + ["row%03d" % ((j * 7 + k * 31) % rows) for k in range(15)] + ["free%03d" % k for k in range(frees)]
        for k in range(0, len(names) - 1, 2):
            lines.append(" %s %s 1.5 %s 2.25" % (name % j, names[k], names[k + 1]))
    return lines + sides


def bounds(name, vector):
    """One or two bounds for each column, by all of which it begins at 0."""
    lines = ["BOUNDS"]
    for j in range(columns):
        upper, lower = " UP %s %s 7.25" % (vector, name % j), " LO %s %s 0" % (vector, name % j)
        one = " FX %s %s 0" % (vector, name % j)
        lines += [[upper, lower], [lower, upper], [lower], [one]][j % 4]
    return lines


def terms(name, entries, bounds):
    """A model in LP in which each column has so many entries, and all begin at 0."""
    lines = ["Minimize", " cost:"] + [" + 1.5 %s" % (name % j) for j in range(columns)] + ["Subject To"]
    held = [[] for _ in range(rows)]
    for j in range(columns):
        for k in range(entries):
            held[(j * 7 + k * 31) % rows].append(j)
    for i, some in enumerate(held):
        lines += [" row%03d:" % i] + [" + 2.25 %s" % (name % j) for j in some] + [" <= 10"]
    return lines + ["Bounds"] + bounds


def write(name, lines, last, ending="mps", end="ENDATA"):
    for kind, text in ((name, lines), (name + "_broken", lines + [last])):
        with open("%s/%s.%s" % (folder, kind, ending), "w") as file:
            file.write("\n".join(text + [end, ""]))


write("columns", body(short, 224), " rhs unknown 1")
write("sections", body(short, 224) + ranges + bounds(short, "set"), " UP set unknown 1")
write("names", body(long, 4) + ranges + bounds(long, 255 * "b"), " UP set unknown 1")
lines = body(short, 0) + ranges + ["BOUNDS"]
for turn in range(rounds):
    for j in range(columns):
        lines.append([" UP set col%04d 7.25", " LO set col%04d -3.5", " FX set col%04d 0", " MI set col%04d", " PL set col%04d",
                      " FR set col%04d"][(turn + j) % 6] % j)
write("again", lines + [" FX set col%04d 0" % j for j in range(columns)], " UP set unknown 1")
settings = [" %s <= 7.25", " %s >= -3.5", " -3.5 <= %s <= 7.25", " %s = 0", " %s free", " 0 <= %s"]
again = [settings[(turn + j) % 6] % (short % j) for turn in range(230) for j in range(columns)]
write("terms", terms(short, 16, again + [" %s = 0" % (short % j) for j in range(columns)]), " 7.25 <=", "lp", "End")
# A name doesn't begin with a digit in LP.
letters = "col%04d" + 248 * "x"
spans = [" 0 <= %s <= 7.25" % (letters % j) for j in range(0, columns, 2)]
write("long_terms", terms(letters, 14, spans), " 7.25 <=", "lp", "End")
PY
ls -l "$folder" | awk 'NR > 1 { print $9, $5, "bytes" }'

seconds() {
    local from to
    from=$(date +%s.%N)
    "$@" >/dev/null 2>&1 || true
    to=$(date +%s.%N)
    awk -v a="$from" -v b="$to" 'BEGIN { printf "%.3f", b - a }'
}

less() {
    awk -v a="$1" -v b="$2" 'BEGIN { print (a < b) ? a : b }'
}

if ! command -v glpsol >/dev/null 2>&1; then
    echo "glpsol is missing (Debian package glpk-utils): no ratio"
fi
for file in {columns,sections,names,again}{,_broken}.mps {terms,long_terms}{,_broken}.lp; do
    case $file in *.lp) format=--lp ;; *) format=--freemps ;; esac
    ours=1000 theirs=1000
    for _ in $(seq "${RUNS:-3}"); do
        ours=$(less "$ours" "$(seconds "$program" solve "$folder/$file")")
        if command -v glpsol >/dev/null 2>&1; then
            theirs=$(less "$theirs" "$(seconds glpsol --check $format "$folder/$file")")
        fi
    done
    said=$("$program" solve "$folder/$file" | grep -E '^(refused|answer|needs)' || true)
    echo "pami   $file: $ours s ($said)"
    if [ "$theirs" != 1000 ]; then
        echo "glpsol $file: $theirs s, ratio $(awk -v a="$ours" -v b="$theirs" 'BEGIN { printf "%.2f", a / b }')"
    fi
done
