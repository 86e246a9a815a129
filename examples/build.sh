#!/usr/bin/env bash
# Makes the modules of the guests in this folder: those in C that use sdk/c/lunatic.h (Debian's packages clang-14, lld-14 and make), and
# those in Rust that use sdk/rust/lunatic.rs (rustc, libstd-rust-dev-wasm32, lld-14 and make).
set -e
cd "$(dirname "$0")"
for guest in hello tags naps echo http; do
    make -s -B -f ../sdk/c/guest.mk "$guest.wasm"
done
for guest in shout; do
    make -s -B -f ../sdk/rust/guest.mk "$guest.wasm"
done
stat -c '%n: %s bytes' hello.wasm tags.wasm naps.wasm echo.wasm http.wasm shout.wasm
