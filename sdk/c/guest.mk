# Makes guests of C files: `make -f sdk/c/guest.mk guest.wasm` makes guest.wasm of guest.c in this folder, with Debian's packages
# clang-14 and lld-14. What each flag is for: `-mcpu=mvp` keeps to the first version of WebAssembly, which is the runtime's; `-nostdlib` and
# `-ffreestanding` leave out a C library, and `-fno-builtin` keeps the compiler from calling one; `--no-entry` leaves the choice of the
# entry function to the exports (LUNATIC_START); `--strip-all` leaves out names that only a debugger reads.
LUNATIC_SDK := $(dir $(lastword $(MAKEFILE_LIST)))
GUEST_CC ?= clang-14
GUEST_FLAGS ?= -O2 -Wall -Wextra

%.wasm: %.c $(LUNATIC_SDK)lunatic.h
	$(GUEST_CC) --target=wasm32 -mcpu=mvp $(GUEST_FLAGS) -ffreestanding -fno-builtin -nostdlib -I $(LUNATIC_SDK) \
	    -Wl,--no-entry,--strip-all -o $@ $<
	chmod 644 $@
