#!/usr/bin/env bash
# Times twenty checks of a body of a million instructions nested 10,000 deep, against twenty of the plain checker of
# validate.rs and twenty readings of the module: the best of five, in seconds of processor time, and the ratios.
set -e
cd "$(dirname "$0")/.."
work=$(mktemp -d)
trap 'rm -rf "$work"' EXIT
mkdir -p "$work/crates/bench/src" "$work/crates/bench/specs" "$work/crates/bench/proofs"
crates="memory_refusal wasm_ops leb_read wasm_form body_reader module_reader body_validator"
for crate in $crates; do
    mkdir "$work/crates/$crate"
    cp -r "crates/$crate/src" "crates/$crate/specs" "crates/$crate/proofs" "$work/crates/$crate/"
    grep "^$crate:" crates.txt >>"$work/crates.txt"
done
echo 'bench: body_validator module_reader wasm_form' >>"$work/crates.txt"
cp bench/validate.rt.txt "$work/crates/bench/src/main.rt"
touch "$work/crates/bench/specs/Lib.antt" "$work/crates/bench/proofs/Lib.antt"
(cd "$work/crates/bench" && rt run) >"$work/log" 2>&1 || { tail -20 "$work/log"; exit 1; }
rustc --edition 2024 -O -C target-cpu=x86-64-v2 -o "$work/rust" bench/validate.rs
TIMEFORMAT=%U
for run in 1 2 3 4 5; do
    for word in make read check; do
        { time "$work/crates/bench/out/bench" "$word" >"$work/$word.bench"; } 2>"$work/time"
        echo "bench $word $(cat "$work/time")"
    done
    for word in make check; do
        { time "$work/rust" "$word" >"$work/$word.rust"; } 2>"$work/time"
        echo "rust $word $(cat "$work/time")"
    done
    cmp "$work/check.bench" "$work/check.rust"
done | awk '
    { key = $1 " " $2; if (!(key in best) || $3 < best[key]) best[key] = $3 }
    END {
        reading = best["bench read"] - best["bench make"]
        ours = best["bench check"] - best["bench make"] - reading / 20
        theirs = best["rust check"] - best["rust make"]
        printf "checking: rattle %.2f s  rust %.2f s  ratio %.2f  reading %.2f s  ratio %.2f\n", ours, theirs,
            ours / theirs, reading, ours / reading
    }'
