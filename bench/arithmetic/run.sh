#!/usr/bin/env bash
# Times `pami_bench` beside its twin over num-rational, in one run: for each kind the seconds of both and the ratio.
# Needs rustc and Debian's librust-num-rational-dev; says what is missing and ends with 0 where they are.
set -eu
here=$(cd "$(dirname "${BASH_SOURCE[0]}")" && pwd)
top=$(cd "$here/../.." && pwd)
registry=/usr/share/cargo/registry
command -v rustc >/dev/null 2>&1 || { echo "rustc is missing: nothing was measured"; exit 0; }
[ -d "$(echo $registry/num-rational-0.4.*)" ] || { echo "librust-num-rational-dev is missing: nothing was measured"; exit 0; }

folder=$(mktemp -d)
trap 'rm -rf "$folder"' EXIT
library() { # NAME EDITION FLAGS.. : builds $registry/NAME-* as an optimised library
    local name=$1 edition=$2 source
    shift 2
    source=$(echo $registry/"$name"-0.*/src/lib.rs)
    rustc -O --edition "$edition" --crate-type rlib --crate-name "${name//-/_}" --cap-lints allow -L "$folder" \
        --out-dir "$folder" "$@" "$source"
}
library num-traits 2015 --cfg 'feature="std"' --cfg has_i128
library num-integer 2015 --cfg 'feature="std"' --cfg has_i128 --extern "num_traits=$folder/libnum_traits.rlib"
library num-rational 2018 --cfg 'feature="std"' --cfg has_i128 --extern "num_traits=$folder/libnum_traits.rlib" \
    --extern "num_integer=$folder/libnum_integer.rlib"
rustc -O --edition 2021 -L "$folder" --extern "num_traits=$folder/libnum_traits.rlib" \
    --extern "num_rational=$folder/libnum_rational.rlib" -o "$folder/twin" "$here/twin.rs"

program=$top/crates/pami_bench/out/pami_bench
[ -x "$program" ] || (cd "$top/crates/pami_bench" && rt run -- mix 1 >/dev/null 2>&1)

seconds() {
    local best=1000000000000 from to one
    for _ in 1 2 3; do
        from=$(date +%s%N)
        "$@" >/dev/null
        to=$(date +%s%N)
        one=$(((to - from) / 1000))
        [ "$one" -lt "$best" ] && best=$one
    done
    awk -v n="$best" 'BEGIN { printf "%.3f", n / 1000000 }'
}

for kind in small word wide mix; do
    rounds=10000
    ours=$("$program" $kind 640)
    theirs=$("$folder/twin" $kind 640)
    [ "$ours" = "$theirs" ] && same=same || same="not the same: $ours, $theirs"
    a=$(seconds "$program" $kind $rounds)
    b=$(seconds "$folder/twin" $kind $rounds)
    echo "$kind: pami $a s, num-rational $b s, ratio $(awk -v a="$a" -v b="$b" 'BEGIN { printf "%.2f", a / b }'), checksums $same"
done
