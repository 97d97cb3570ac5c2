#!/usr/bin/env bash
# Runs `pami solve` and the exact solver esolver on the MPS models that installed packages bring, and prints a table with
# what each says: real.sh [PROGRAM..], by default the program that ./pami builds.
set -eu
top=$(cd "$(dirname "${BASH_SOURCE[0]}")/.." && pwd)
folder=$(mktemp -d)
trap 'rm -rf "$folder"' EXIT

if [ $# -eq 0 ]; then
    "$top/pami" solve "$top/examples/diet.mps" >/dev/null
    set -- "$top/crates/pami_cli/out/pami_cli"
fi
if ! command -v python3 >/dev/null 2>&1; then
    echo "real.sh: skipped, as there is no python3"
    exit 0
fi
python3 -B "$top/bench/real.py" "$folder" "$@"
