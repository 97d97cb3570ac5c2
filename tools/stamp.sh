# shellcheck shell=bash disable=SC2154
# What the program is made of, for ./pami and .ci/run, which source this file with the repository's top in `top`.

program=$top/crates/pami_cli/out/pami_cli
# The folder of the last build's stamp and log and of the lock. `rt ci` sets a crate's out/ aside, so they stand above.
kept=$top/out

# The toolchain; where there is none on the path, that of the last build, as there is no other to compare it with.
toolchain() {
    if command -v rt >/dev/null 2>&1; then
        rt version
    else
        head -n 1 "$kept/stamp" 2>/dev/null
    fi
}

# The toolchain, and each source with its sum and its length. Another text, a new file and a removed one all change it.
made_of() {
    toolchain
    (cd "$top" && find crates crates.txt -name out -prune -o -type f \
        \( -name '*.rt' -o -name '*.antt' -o -name crates.txt \) -exec cksum {} + | LC_ALL=C sort -k 3)
}

# Whether the program that stands there was built from these sources, by this toolchain.
is_current() {
    [ -x "$program" ] && [ -f "$kept/stamp" ] && [ "$(made_of && cksum <"$program")" = "$(cat "$kept/stamp")" ]
}

# Says that the program was built from what `made_of` had printed before the build began.
write_stamp() {
    mkdir -p "$kept" && { printf '%s\n' "$1" && cksum <"$program"; } >"$kept/stamp"
}
