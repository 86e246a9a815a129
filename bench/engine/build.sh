#!/usr/bin/env bash
# Makes each module of this folder from its C program (Debian's packages clang-14, lld-14 and wabt), checks that it
# imports nothing and uses no floats and nothing past WebAssembly 1.0, and that the same work compiled for this machine
# gives the expected result.
set -e
cd "$(dirname "$0")"
native=$(mktemp)
trap 'rm -f "$native"' EXIT
for program in *.c; do
    module=${program%.c}.wasm
    clang-14 --target=wasm32 -mcpu=mvp -O2 -Wall -Wextra -ffreestanding -fno-builtin -nostdlib \
        -Wl,--no-entry,--strip-all -o "$module" "$program"
    chmod 644 "$module"
    wasm-validate --disable-sign-extension --disable-saturating-float-to-int --disable-multi-value --disable-simd \
        --disable-bulk-memory --disable-reference-types "$module"
    if wasm-objdump -xd "$module" | grep -E 'f32|f64|^Import'; then
        echo "$module: floats or imports" >&2
        exit 1
    fi
    clang-14 -O1 -Wall -Wextra -o "$native" "$program"
    read -r given expected <<<"$("$native")"
    echo "$module: $(stat -c %s "$module") bytes, result $given"
    [ "$given" = "$expected" ] || { echo "$program: $expected was expected" >&2; exit 1; }
done
