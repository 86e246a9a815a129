#!/usr/bin/env bash
# Runs each module of bench/engine by wabt's wasm-interp, by the engine's design in plain Rust (engine.rs), and by the
# program where it is built and runs them, and prints for each the instructions, the best processor time of RUNS runs (2
# where nothing else is said), how many times as fast as wasm-interp it is, and at last the geometric means. All must
# give the result that the C program names, and the program must count the same instructions.
#     [RUNS=n] [CPU=n] bench/engine.sh [NAME..]     the processor is the last one where none is named
set -eo pipefail
cd "$(dirname "$0")/.."
work=$(mktemp -d)
trap 'rm -rf "$work"' EXIT
runs=${RUNS:-2}
cpu=${CPU:-$(($(nproc) - 1))}
program=crates/tickmonel/out/tickmonel
command -v wasm-interp >"$work/where" || { echo 'wasm-interp is missing (package wabt)' >&2; exit 1; }
rustc --edition 2024 -O -C target-cpu=x86-64-v2 -o "$work/plain" bench/engine.rs

# Runs a command and keeps what it writes, and its processor time in seconds beside those before.
timed() {
    local key=$1 TIMEFORMAT=%3U
    shift
    { time taskset -c "$cpu" "$@" >"$work/$key.out" 2>"$work/$key.err" || true; } 2>>"$work/$key.times"
}

least() {
    sort -n "$work/$1.times" | head -1
}

wrong() {
    echo "$1: $2 gave: $(cat "$work/$2.out")" >&2
    exit 1
}

skip=
if [ ! -x "$program" ]; then
    skip="the program isn't built in this clone"
elif ! "$program" run bench/engine/queens.wasm >"$work/out" || ! grep -q '^process 1 done' "$work/out"; then
    skip="the program doesn't run them yet: $(head -1 "$work/out")"
fi

[ $# -gt 0 ] || set -- $(cd bench/engine && ls -- *.wasm | sed 's/\.wasm$//')
for name; do
    module=bench/engine/$name.wasm
    expected=$(sed -n 's/^ENTRY(\([0-9]*\)u)$/\1/p' "bench/engine/$name.c")
    rm -f "$work"/*.times
    ours=-
    for ((run = 0; run < runs; run++)); do
        timed interp wasm-interp --run-all-exports "$module"
        timed plain "$work/plain" "$module"
        [ -n "$skip" ] || timed tickmonel "$program" run "$module"
    done
    read -r given executed <"$work/plain.out"
    [ "$(cat "$work/interp.out")" = "_start() => i32:$expected" ] || wrong "$name" interp
    [ "$given" = "$expected" ] || wrong "$name" plain
    if [ -z "$skip" ]; then
        grep -q "^process 1 done fuel $executed " "$work/tickmonel.out" || wrong "$name" tickmonel
        ours=$(least tickmonel)
    fi
    echo "$name $executed $(least interp) $(least plain) $ours"
done | awk -v skip="$skip" '
    BEGIN {
        printf "%-10s %13s %12s %10s %6s %10s %6s\n", "program", "instructions", "wasm-interp", "plain", "times",
            "tickmonel", "times"
    }
    {
        printf "%-10s %13d %10.2f s %8.2f s %6.2f", $1, $2, $3, $4, $3 / $4
        plain += log($3 / $4); count++
        if ($5 != "-") { printf " %8.2f s %6.2f", $5, $3 / $5; ours += log($3 / $5) }
        printf "\n"
    }
    END {
        if (count > 0) {
            printf "%-10s %13s %12s %10s %6.2f", "geo. mean", "", "", "", exp(plain / count)
            if (skip == "") printf " %10s %6.2f", "", exp(ours / count)
            printf "\n"
        }
        if (skip != "") print skip
    }'
