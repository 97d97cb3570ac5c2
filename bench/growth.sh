#!/usr/bin/env bash
# How the time of a pivot grows: `pami solve` on transport models of 32, 64, 128 and 256 rows with eight sources each:
# growth.sh [PROGRAM], by default the program that ./pami builds. RUNS sets how many runs each number is the median of; with
# COUNT=yes callgrind's instructions stand beside the seconds.
set -eu
top=$(cd "$(dirname "${BASH_SOURCE[0]}")/.." && pwd)
folder=$(mktemp -d)
trap 'rm -rf "$folder"' EXIT

program=${1:-$top/crates/pami_cli/out/pami_cli}
if [ $# -eq 0 ]; then
    "$top/pami" solve "$top/examples/diet.mps" >/dev/null
fi
if [ ! -x "$program" ]; then
    echo "there is no program at $program" >&2
    exit 1
fi
python3 -B "$top/bench/growth.py" "$program" "$folder" "${RUNS:-5}" "${COUNT:-no}"
