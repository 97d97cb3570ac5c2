#!/usr/bin/env bash
# Times `pami solve` on models of 20 to 256 rows beside glpsol --exact and esolver, and compares the objectives:
# solve.sh [PROGRAM], by default the program that ./pami builds. RUNS sets how many runs each number is the median of.
set -eu
top=$(cd "$(dirname "${BASH_SOURCE[0]}")/.." && pwd)
folder=$(mktemp -d)
trap 'rm -rf "$folder"' EXIT

program=${1:-$top/crates/pami_cli/out/pami_cli}
if [ $# -eq 0 ]; then
    "$top/pami" solve "$top/examples/diet.mps" >/dev/null
fi
if [ ! -x "$program" ]; then
    echo "there is no program at $program" >&2
    exit 1
fi
python3 -B "$top/bench/solve.py" "$program" "$folder" "${RUNS:-5}"
