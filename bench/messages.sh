#!/usr/bin/env bash
# How many messages a second one process sends to itself and receives by tag: by the program, and, where Erlang is
# installed, by the same loop in Erlang with one scheduler. Each time is the best of RUNS (3), of the whole command; what
# starting alone takes is printed beside. The module is made by clang-14 and lld-14 where they are installed.
set -e
cd "$(dirname "$0")/.."
runs=${RUNS:-3}
rounds=100000
if command -v clang-14 > /dev/null; then
    clang-14 --target=wasm32 -mcpu=mvp -O2 -Wall -Wextra -ffreestanding -fno-builtin -nostdlib -I sdk/c \
        -Wl,--no-entry,--strip-all -o bench/messages/messages.wasm bench/messages/messages.c
    chmod 644 bench/messages/messages.wasm
fi
best() { # best COMMAND..: the least seconds that the command took
    local least=
    for _ in $(seq "$runs"); do
        local from to
        from=$(date +%s%N)
        "$@" > /dev/null 2>&1 || true
        to=$(date +%s%N)
        local took=$((to - from))
        if [ -z "$least" ] || [ "$took" -lt "$least" ]; then least=$took; fi
    done
    awk -v ns="$least" 'BEGIN { printf "%.3f", ns / 1e9 }'
}
tell() { # tell NAME SECONDS START
    awk -v name="$1" -v s="$2" -v start="$3" -v n="$rounds" \
        'BEGIN { printf "%-12s %8.3f s, of which starting %.3f s: %d messages a second\n", name, s, start, n / (s - start) }'
}
./tickmonel run bench/messages/messages.wasm 2> /dev/null
tell tickmonel "$(best ./tickmonel run bench/messages/messages.wasm)" "$(best ./tickmonel run examples/first.wasm)"
if command -v erlc > /dev/null; then
    beams=$(mktemp -d)
    trap 'rm -rf "$beams"' EXIT
    erlc -o "$beams" bench/messages/messages.erl
    tell Erlang "$(best erl +S 1 -noshell -pa "$beams" -s messages main)" "$(best erl +S 1 -noshell -eval 'halt().')"
fi
