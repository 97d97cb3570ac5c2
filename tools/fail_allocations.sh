#!/usr/bin/env bash
# Lets each allocation of a major fail in turn: the state has to be as before, and the same major has to go through then.
#
#   tools/fail_allocations.sh [JOBS]      so many runs at once; 2 where nothing is said
#
# Each run builds and runs the two tests of crates/pami_major/src/memory_tests.rt, in which the Nth allocation fails. It proves
# nothing and takes a minute or more, so it isn't part of the gate. One test names the part in which memory ran out, and passes
# behind the last allocation; the other one has to pass whichever fails. The model and its start allocate first: the first
# allocation of the major is found by halving, and from there on each is tried until none fails any more.
# Status 0 where each run held, 1 where one didn't, 2 where one gave no answer.
set -eu
cd "$(dirname "$0")/../crates/pami_major"
jobs=${1:-2}
logs=$(mktemp -d)
trap 'rm -rf "$logs"' EXIT

run() { # N
    rt try --test --fail-alloc "$1" -- memory_tests > "$logs/$1" 2>&1 || true
}

passes() { # N TEST
    grep -q "^test memory_tests::$2 \.\.\. ok$" "$logs/$1"
}

part() { # N: before, major or behind
    if passes "$1" a_major_with_memory_is_whole; then
        echo behind
    elif grep -q 'error: "a major"' "$logs/$1"; then
        echo major
    elif grep -qE 'error: "a (form|start|copy)"' "$logs/$1"; then
        echo before
    else
        cat "$logs/$1" >&2
        exit 2
    fi
}

is_before() { # N: is the Nth allocation one that comes before the major?
    [ -e "$logs/$1" ] || run "$1"
    where=$(part "$1") || exit 2
    [ "$where" = before ]
}

low=0
high=32
while is_before $high; do
    low=$high
    high=$((high * 2))
done
while [ $((high - low)) -gt 1 ]; do
    middle=$(((low + high) / 2))
    if is_before $middle; then low=$middle; else high=$middle; fi
done

first=$high
n=$first
while :; do
    for k in $(seq "$n" $((n + jobs - 1))); do
        [ -e "$logs/$k" ] || run "$k" &
    done
    wait
    for k in $(seq "$n" $((n + jobs - 1))); do
        where=$(part "$k")
        if ! passes "$k" a_major_without_memory_leaves_its_state; then
            echo "allocation $k: the state isn't as before, or the major doesn't go through then" >&2
            cat "$logs/$k" >&2
            exit 1
        fi
        if [ "$where" = behind ]; then
            echo "$((k - first)) allocations of a major failed in turn, the first of them allocation $first of the test: each time the state was as before"
            exit 0
        fi
        echo "allocation $k: as before"
    done
    n=$((n + jobs))
done
