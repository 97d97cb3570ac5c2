#!/usr/bin/env bash
# Compares batches of 1, 2, 4 and 8 rows on models of 50 to 256 rows: batch.sh [PROGRAM], by default the program that ./pami
# builds. SECONDS_MOST sets after how many seconds a run is stopped; COUNT=yes counts instructions by callgrind too, which
# takes some fifty times as long.
set -eu
top=$(cd "$(dirname "${BASH_SOURCE[0]}")/.." && pwd)
folder=$(mktemp -d)
trap 'rm -rf "$folder"' EXIT

program=${1:-$top/crates/pami_cli/out/pami_cli}
if [ $# -eq 0 ]; then
    "$top/pami" solve "$top/examples/diet.mps" >/dev/null
fi
if [ ! -x "$program" ]; then
    echo "there is no program at $program" >&2
    exit 1
fi
python3 -B "$top/bench/batch.py" "$program" "$folder" "${SECONDS_MOST:-120}" "${COUNT:-no}"
