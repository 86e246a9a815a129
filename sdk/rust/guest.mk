# Makes guests of Rust files: `make -f sdk/rust/guest.mk guest.wasm` makes guest.wasm of guest.rs in this folder, with Debian's packages
# rustc, libstd-rust-dev-wasm32 and lld-14. The flags keep to the first version of WebAssembly, end a panic at once, leave out names that
# only a debugger reads, and give the stack 64 KiB, as clang does. A guest begins with `#![no_std]`, and names the crate `lunatic`.
LUNATIC_SDK := $(dir $(lastword $(MAKEFILE_LIST)))
GUEST_RUSTC ?= /usr/bin/rustc
GUEST_FLAGS ?= -C opt-level=s
LUNATIC_FLAGS := --edition 2021 --target wasm32-unknown-unknown -C target-cpu=mvp -C panic=abort

%.wasm: %.rs $(LUNATIC_SDK)lunatic.rs
	$(GUEST_RUSTC) $(LUNATIC_FLAGS) $(GUEST_FLAGS) --crate-type rlib --crate-name lunatic -o liblunatic-$*.rlib $(LUNATIC_SDK)lunatic.rs
	$(GUEST_RUSTC) $(LUNATIC_FLAGS) $(GUEST_FLAGS) -C lto -C link-arg=--strip-all -C link-arg=-zstack-size=65536 -C linker=wasm-ld-14 --crate-type cdylib \
	    --extern lunatic=liblunatic-$*.rlib -o $@ $<
	rm -f liblunatic-$*.rlib
	chmod 644 $@
