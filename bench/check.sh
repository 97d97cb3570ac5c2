#!/usr/bin/env bash
# Times `pami check` on what `pami solve` wrote, beside the solving and beside the reading of both files:
# check.sh [PROGRAM], by default the program that ./pami builds. Each number is the least of RUNS runs (5), which take turns.
#
# Reading alone is timed by a certificate that lacks its line `end`: the checker then reads the model and all of the
# certificate, and says that the line is missing in place of a verdict.
set -eu
top=$(cd "$(dirname "${BASH_SOURCE[0]}")/.." && pwd)
folder=$(mktemp -d)
trap 'rm -rf "$folder"' EXIT

program=${1:-$top/crates/pami_cli/out/pami_cli}
if [ $# -eq 0 ]; then
    "$top/pami" solve "$top/examples/diet.mps" >/dev/null
fi
if [ ! -x "$program" ]; then
    echo "there is no program at $program" >&2
    exit 1
fi

# `dense`: 100 rows that ask for enough, each with an entry in each of 100 columns. `wide`: 256 rows and 4,096 columns of 16
# entries each, as many as a model may have; a few rows ask for enough, and the others leave so much room that no plan
# meets their sides. `thin`: the same with some 10,000 entries, and each column at least 1, so that each value counts in a
# sum. `none` and `ray` are as wide as `wide`: in the first a row asks for something that another row forbids, in the second
# a column earns and no row limits it.
python3 - "$folder" "$top/bench" <<'PY'
import random
import sys

folder = sys.argv[1]
sys.path.insert(0, sys.argv[2])
sys.dont_write_bytecode = True
import models


def dense(name, size, draw):
    rows = [("G", "row%d" % i, draw.randint(1, 60)) for i in range(size)]
    columns = [("col%d" % j, draw.randint(20, 90), [("row%d" % i, draw.randint(1, 9)) for i in range(size)])
               for j in range(size)]
    return name, rows, columns


def wide(name, asking, draw, entries=16):
    count, width = 256, 4096
    rows = [("G" if i < asking else "L", "row%d" % i, draw.randint(5, 60) if i < asking else 10 ** 6) for i in range(count)]
    columns = []
    for j in range(width):
        members = sorted(draw.sample(range(count), entries or draw.choice([2, 2, 3])))
        columns.append(("col%d" % j, draw.randint(1, 40), [("row%d" % i, draw.randint(1, 9)) for i in members]))
    return name, rows, columns


def raised(text, columns):
    """The text of a model with the lower bound 1 for each column."""
    bounds = ["BOUNDS"] + [" LO set %s 1" % column for column, _, _ in columns]
    return text.replace("ENDATA", "\n".join(bounds + ["ENDATA"]))


def none(name, draw):
    """Row 0 asks for something, and row 1 allows no column anything."""
    name, rows, columns = wide(name, 0, draw)
    rows[0], rows[1] = ("G", "row0", 1), ("L", "row1", 0)
    for _, _, members in columns:
        members[:] = [("row1", 1)] + [it for it in members if it[0] != "row1"][:15]
    return name, rows, columns


def ray(name, draw):
    name, rows, columns = wide(name, 0, draw)
    column, _, members = columns[7]
    columns[7] = (column, -5, [(row, -value) for row, value in members])
    return name, rows, columns


for drawn in (dense("dense", 100, random.Random(1)), wide("wide", 8, random.Random(2)), none("none", random.Random(3)),
              ray("ray", random.Random(4))):
    with open("%s/%s.mps" % (folder, drawn[0]), "w") as file:
        file.write(models.text_of(*drawn))
thin = wide("thin", 8, random.Random(5), None)
with open(folder + "/thin.mps", "w") as file:
    file.write(raised(models.text_of(*thin), thin[2]))
PY

seconds() {
    local from to
    from=$(date +%s.%N)
    "$@" >/dev/null 2>&1 || true
    to=$(date +%s.%N)
    awk -v a="$from" -v b="$to" 'BEGIN { printf "%.4f", b - a }'
}

less() {
    awk -v a="$1" -v b="$2" 'BEGIN { print (a < b) ? a : b }'
}

ratio() {
    awk -v a="$1" -v b="$2" 'BEGIN { printf "%.2f", a / b }'
}

wrong=0
for name in dense wide thin none ray; do
    model=$folder/$name.mps answer=$folder/$name.txt cut=$folder/$name.cut
    "$program" solve "$model" >"$answer" || true
    said=$(grep -E '^answer' "$answer" || head -1 "$answer")
    sed '/^end$/,$d' "$answer" >"$cut"
    verdict=$("$program" check "$model" "$answer" || true)
    missing=$("$program" check "$model" "$cut" || true)
    if [ "$verdict" != valid ] || ! [[ $missing =~ ^malformed\ [0-9]+\ end-missing$ ]]; then
        echo "$name ($said): check says '$verdict', and without the last line '$missing'"
        wrong=1
        continue
    fi
    solving=10000 checking=10000 reading=10000
    for _ in $(seq "${RUNS:-5}"); do
        solving=$(less "$solving" "$(seconds "$program" solve "$model")")
        checking=$(less "$checking" "$(seconds "$program" check "$model" "$answer")")
        reading=$(less "$reading" "$(seconds "$program" check "$model" "$cut")")
    done
    echo "$name ($said, $(grep -c '^pivot' "$answer" || true) pivots): check $checking s, ratio to reading both files" \
        "$(ratio "$checking" "$reading") ($reading s), to solving $(ratio "$checking" "$solving") ($solving s)"
done
exit $wrong
