#!/usr/bin/env bash
# How often each code is executed in the programs of bench/engine: the mean of its shares in the programs (an end or an
# else that is passed counts as one), the greatest share with its program, and the sum of the means so far.
set -eo pipefail
cd "$(dirname "$0")/.."
work=$(mktemp -d)
trap 'rm -rf "$work"' EXIT
rustc --edition 2024 -O -o "$work/plain" bench/engine.rs
for module in bench/engine/*.wasm; do
    "$work/plain" "$module" codes | sed -n "2,\$s|^|$(basename "$module" .wasm) |p"
done | awk '
    { count[$1, $2] = $3; total[$1] += $3; codes[$2]; names[$1] }
    END {
        for (name in names) programs++
        for (code in codes) {
            sum = most = 0
            for (name in names) {
                share = 100 * count[name, code] / total[name]
                sum += share
                if (share > most) { most = share; where = name }
            }
            printf "%s %.2f %.1f %s\n", code, sum / programs, most, where
        }
    }' | sort -k2,2nr -k1,1 | awk '
    BEGIN { print "code  mean %  sum %  most %" }
    { printf "%4s %7.2f %6.1f %7.1f  %s\n", $1, $2, sum += $2, $3, $4 }'
