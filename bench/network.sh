#!/usr/bin/env bash
# Trips a second of 64 bytes over one connection of the loopback: the guest examples/echo.wasm on the program beside an echo server
# in C over poll and, where Erlang is installed, one in Erlang with one scheduler, with the same client (gcc).
# Usage: bench/network.sh [TRIPS]
set -e
top="$(cd "$(dirname "$0")/.." && pwd)"
trips="${1:-20000}"
work="$(mktemp -d)"
trap 'rm -rf "$work"' EXIT
gcc -O2 -o "$work/client" "$top/bench/network/client.c"
gcc -O2 -o "$work/poll_server" "$top/bench/network/poll_server.c"

# Ends a server that serves three connections, of which the measured one was the first.
end_server() { "$work/client" "$1" 1 > /dev/null && "$work/client" "$1" 1 > /dev/null; }

"$work/poll_server" 7171 &
plain="$("$work/client" 7171 "$trips")"
end_server 7171
wait
"$top/tickmonel" run "$top/examples/echo.wasm" > "$work/report" &
ours="$("$work/client" 7070 "$trips")"
end_server 7070
wait
cat "$work/report"
ratio() { awk "BEGIN { printf \"%.2f\", $ours / $1 }"; }
echo "C over poll: $plain trips a second; tickmonel: $ours; ratio $(ratio "$plain")"
if command -v erlc > /dev/null; then
    erlc -o "$work" "$top/bench/network/echo.erl"
    erl +S 1 -noshell -pa "$work" -run echo main 7272 &
    erlang="$("$work/client" 7272 "$trips")"
    end_server 7272
    wait
    echo "Erlang: $erlang trips a second; ratio $(ratio "$erlang")"
fi
