#!/usr/bin/env bash
# Times how fast processes begin: a module with 1 MB of code and a memory of one page is accepted once and started
# 100,000 times. Prints the best of five of the time to accept it and of the starts a second, in processor time.
set -e
cd "$(dirname "$0")/.."
work=$(mktemp -d)
trap 'rm -rf "$work"' EXIT
mkdir -p "$work/crates/bench/src" "$work/crates/bench/specs" "$work/crates/bench/proofs"
below() {
    local name
    for name in $(sed -n "s/^$1\( [^:]*\)\?: *//p" crates.txt); do
        [ -d "crates/$name" ] && ! grep -qx "$name" "$work/names" && below "$name"
    done
    echo "$1" >>"$work/names"
}
touch "$work/names"
below fuel_stepper
for crate in $(cat "$work/names"); do
    mkdir "$work/crates/$crate"
    cp -r "crates/$crate/src" "crates/$crate/specs" "crates/$crate/proofs" "$work/crates/$crate/"
    grep -E "^$crate( [^:]*)?:" crates.txt >>"$work/crates.txt"
done
echo 'bench: fuel_stepper host_port module_reader module_validator' >>"$work/crates.txt"
cp bench/starts.rt.txt "$work/crates/bench/src/main.rt"
touch "$work/crates/bench/specs/Lib.antt" "$work/crates/bench/proofs/Lib.antt"
[ -f HANDLES ] && cp HANDLES "$work/"
(cd "$work/crates/bench" && rt run) >"$work/log" 2>&1 || { tail -200 "$work/log"; exit 1; }
TIMEFORMAT=%U
for run in 1 2 3 4 5; do
    for word in make accept start; do
        { time "$work/crates/bench/out/bench" "$word" >"$work/out.$word"; } 2>"$work/time"
        echo "$word $(cat "$work/time")"
    done
done | awk '
    { if (!($1 in best) || $2 < best[$1]) best[$1] = $2 }
    END {
        printf "accepting 1 MB of code: %.3f s\n", best["accept"] - best["make"]
        printf "starts a second: %.0f\n", 100000 / (best["start"] - best["accept"])
    }'
cat "$work/out.start"
