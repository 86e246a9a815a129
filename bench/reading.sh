#!/usr/bin/env bash
# Times the reading of a module of 16.8 MB by `read_module`, and by the plain reader of reading.rs: the best of five, in
# seconds of processor time without the making of the bytes, and the ratio. Both must count the same instructions.
set -e
cd "$(dirname "$0")/.."
work=$(mktemp -d)
trap 'rm -rf "$work"' EXIT
mkdir -p "$work/crates/bench/src" "$work/crates/bench/specs" "$work/crates/bench/proofs"
crates="memory_refusal wasm_ops leb_read wasm_form body_reader module_reader"
for crate in $crates; do
    mkdir "$work/crates/$crate"
    cp -r "crates/$crate/src" "crates/$crate/specs" "crates/$crate/proofs" "$work/crates/$crate/"
    grep "^$crate:" crates.txt >>"$work/crates.txt"
done
echo 'bench: module_reader wasm_form' >>"$work/crates.txt"
cp bench/reading.rt.txt "$work/crates/bench/src/main.rt"
touch "$work/crates/bench/specs/Lib.antt" "$work/crates/bench/proofs/Lib.antt"
(cd "$work/crates/bench" && rt run) >"$work/log" 2>&1 || { tail -20 "$work/log"; exit 1; }
rustc --edition 2024 -O -C target-cpu=x86-64-v2 -o "$work/rust" bench/reading.rs
TIMEFORMAT=%U
for run in 1 2 3 4 5; do
    for program in crates/bench/out/bench rust; do
        for word in make read; do
            { time "$work/$program" "$word" >"$work/$word.${program##*/}"; } 2>"$work/time"
            echo "${program##*/} $word $(cat "$work/time")"
        done
    done
    cmp "$work/read.bench" "$work/read.rust"
done | awk '
    { key = $1 " " $2; if (!(key in best) || $3 < best[key]) best[key] = $3 }
    END {
        ours = best["bench read"] - best["bench make"]
        theirs = best["rust read"] - best["rust make"]
        printf "reading 16.8 MB: rattle %.2f s  rust %.2f s  ratio %.2f\n", ours, theirs, ours / theirs
    }'
