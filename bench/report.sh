#!/usr/bin/env bash
# What the report of a journal costs: processes that nap in turn, 1 and 200 of them, in journals of 100,000 entries and of
# twice as many. Prints the microseconds of processor time an entry, the best of RUNS (3), and by how much the longer
# journal costs more than the shorter. The report replays the rules entry by entry, so a cost an entry that stays is linear.
set -e
cd "$(dirname "$0")/.."
work=$(mktemp -d)
trap 'rm -rf "$work"' EXIT
mkdir -p "$work/crates/bench/src" "$work/crates/bench/specs" "$work/crates/bench/proofs"
below() {
    local name
    for name in $(sed -n "s/^$1\( [^:]*\)\?: *//p" crates.txt); do
        [ -d "crates/$name" ] && ! grep -qx "$name" "$work/names" && below "$name"
    done
    echo "$1" >>"$work/names"
}
touch "$work/names"
below plain_world
for crate in $(cat "$work/names"); do
    mkdir "$work/crates/$crate"
    cp -r "crates/$crate/src" "crates/$crate/specs" "crates/$crate/proofs" "$work/crates/$crate/"
    grep -E "^$crate( [^:]*)?:" crates.txt >>"$work/crates.txt"
done
echo 'bench: host_port memory_refusal plain_world world_rules' >>"$work/crates.txt"
cp bench/report.rt.txt "$work/crates/bench/src/main.rt"
touch "$work/crates/bench/specs/Lib.antt" "$work/crates/bench/proofs/Lib.antt"
[ -f HANDLES ] && cp HANDLES "$work/"
(cd "$work/crates/bench" && rt run -- 1 1 1) >"$work/log" 2>&1 || { tail -200 "$work/log"; exit 1; }
TIMEFORMAT=%U
for processes in 1 200; do
    for entries in 100000 200000; do
        rounds=$((entries / 2 / processes))
        for run in $(seq "${RUNS:-3}"); do
            for reports in 0 1; do
                { time "$work/crates/bench/out/bench" "$processes" "$rounds" "$reports" >"$work/out"; } 2>"$work/time"
                echo "$processes $entries $reports $(cat "$work/time") $(cat "$work/out")"
            done
        done
    done
done | awk '
    { key = $1 " " $2 " " $3; if (!(key in best) || $4 < best[key]) best[key] = $4; if ($5 == 1 || $5 == 2) failed = 1 }
    END {
        if (failed) { print "a journal was refused, or memory lacked"; exit 1 }
        for (p = 1; p <= 200; p += 199) {
            for (e = 100000; e <= 200000; e += 100000) {
                # the spawns of a run of 200 processes are entries too: 200 * 199 / 2 naps and 199 spawns, two entries each
                more = p == 1 ? 0 : 2 * (200 * 199 / 2 + 199)
                cost[p, e] = (best[p " " e " 1"] - best[p " " e " 0"]) / (e + more)
                printf "%3d processes, %6d entries: %.2f microseconds an entry\n", p, e + more, cost[p, e] * 1e6
            }
            printf "%3d processes: %.2f times as much an entry in the longer journal\n", p, cost[p, 200000] / cost[p, 100000]
        }
    }'
