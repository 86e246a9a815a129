#!/usr/bin/env bash
# Times the loops of memory.rt.txt against those of memory.rs: for each the best of five,
# in seconds of processor time, and the ratio. Both must give the same values.
set -e
cd "$(dirname "$0")/.."
work=$(mktemp -d)
trap 'rm -rf "$work"' EXIT
mkdir -p "$work/crates/bench/src" "$work/crates/bench/specs" "$work/crates/bench/proofs"
for crate in memory_refusal wasm_ops linear_memory; do
    mkdir "$work/crates/$crate"
    cp -r "crates/$crate/src" "crates/$crate/specs" "crates/$crate/proofs" "$work/crates/$crate/"
done
cp bench/memory.rt.txt "$work/crates/bench/src/main.rt"
touch "$work/crates/bench/specs/Lib.antt" "$work/crates/bench/proofs/Lib.antt"
printf '%s\n' 'memory_refusal:' 'wasm_ops:' 'linear_memory: memory_refusal wasm_ops' \
    'bench: linear_memory wasm_ops' >"$work/crates.txt"
(cd "$work/crates/bench" && rt run) >"$work/log" 2>&1 || { tail -20 "$work/log"; exit 1; }
rustc --edition 2024 -O -C target-cpu=x86-64-v2 -o "$work/rust" bench/memory.rs
TIMEFORMAT=%U
for loop in loads stores marks operations; do
    for run in 1 2 3 4 5; do
        for program in crates/bench/out/bench rust; do
            { time "$work/$program" "$loop" >"$work/${program##*/}.value"; } 2>"$work/time"
            echo "$loop ${program##*/} $(cat "$work/time")"
        done
        cmp "$work/bench.value" "$work/rust.value"
    done
done | awk '
    { key = $1 " " $2; if (!(key in best) || $3 < best[key]) best[key] = $3; if (!($1 in seen)) { seen[$1] = 1; order[++count] = $1 } }
    END {
        for (i = 1; i <= count; i++) {
            name = order[i]
            printf "%-12s rattle %.2f s  rust %.2f s  ratio %.2f\n", name, best[name " bench"], best[name " rust"],
                best[name " bench"] / best[name " rust"]
        }
    }'
