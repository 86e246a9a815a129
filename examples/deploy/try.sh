#!/usr/bin/env bash
# Starts three runtimes of echo.c at the loopback's ports 7101 to 7103 and HAProxy before them at 7100, kills the first runtime while
# it serves, and shows that the others go on serving. Ends with the number of answers that were wrong.
#     try.sh [PROGRAM]    with the launcher of this tree where no program is given
# Needs Debian's haproxy, and clang-14, lld-14 and make for the guests.
here="$(cd "$(dirname "$0")" && pwd)" || exit 2
top="$(cd "$here/../.." && pwd)" || exit 2
program="$(readlink -f "${1:-$top/tickmonel}")"
haproxy="$(PATH="$PATH:/usr/sbin" command -v "${HAPROXY:-haproxy}")" || { echo "try.sh: there is no haproxy" >&2; exit 2; }
work="$(mktemp -d)" || exit 2
declare -A started
trap 'kill "${started[@]}" 2> /dev/null; wait 2> /dev/null; rm -rf "$work"' EXIT

serve() { "$program" run --fuel 1000000000000000 --traffic 1099511627776 --idle 100000 "$work/$1.wasm" > "$work/$1.report" 2>&1 & started[$1]=$!; }

# Kills the runtime of this port.
end() { { kill -KILL "${started[$1]}"; wait "${started[$1]}"; unset "started[$1]"; } 2> /dev/null; }

# what the port answers to a line
ask() {
    exec 3<> "/dev/tcp/127.0.0.1/$1" || return
    printf '%s\n' "$2" >&3
    timeout 5 head -n 1 <&3
    exec 3>&-
} 2> /dev/null

# How many of eight lines come back over HAProxy.
count() {
    local good=0 n
    for n in 1 2 3 4 5 6 7 8; do
        [ "$(ask 7100 "line $n")" = "line $n" ] && good=$((good + 1))
    done
    echo "$good"
}

wrong=0
tell() {
    echo "$1: $2 of 8 lines came back"
    wrong=$((wrong + 8 - $2))
}

for port in 7101 7102 7103; do
    cp "$here/echo.c" "$work/$port.c"
    (cd "$work" && make -s -f "$top/sdk/c/guest.mk" GUEST_FLAGS="-O2 -Wall -Wextra -DPORT=$port" "$port.wasm") || exit 2
    serve "$port"
done
"$haproxy" -f "$here/haproxy.cfg" -db > "$work/haproxy.log" 2>&1 &
started[haproxy]=$!
for _ in $(seq 100); do
    [ "$(ask 7100 ready)" = ready ] && break
    sleep 0.1
done

tell "three runtimes" "$(count)"
end 7101
tell "right after the first was killed" "$(count)"
sleep 3
tell "when HAProxy has noticed" "$(count)"
serve 7101
sleep 2
end 7102
end 7103
sleep 3
tell "the first anew, and the others killed" "$(count)"
[ "$wrong" -eq 0 ] || cat "$work"/*.report "$work/haproxy.log"
exit "$wrong"
