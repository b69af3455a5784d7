# A target is a line with '## what it does', which `make help` shows, and its commands.
.PHONY: help test test-long check figures lib crate tool install demo bench clean FORCE

# where `make install` puts things, and the folder in front of that, for packages
PREFIX := /usr/local
DESTDIR :=
INTO = $(DESTDIR)$(abspath $(PREFIX))
VERSION = $(shell sed -n 's/^.define BBL_VERSION "\(.*\)"/\1/p' include/blackboxlog.h)

# what Rust programs are compiled from
CRATE := $(wildcard rust/blackboxlog/src/*.rs)
TOOL := $(wildcard rust/blackbox/src/*.rs)
RUSTC := tools/x86 rustc --edition 2021 -O -L build

help: ## this list
	@grep -E '^[a-z-]+:.*## ' Makefile | sed -E 's/^([a-z-]+):.*## /make \1\t/' | expand -t 16

test: ## the gate: proofs, must-fail edits, programs, every other test; last line 'N passed, M failed'
	@tests/gate

test-long: ## the gate with all that its tests can try: under an hour more
	@tests/gate --long

check: ## quick: prove what changed since the last time and run the programs
	@rt all test

figures: ## lines of each crate, and what each must-fail edit rules out
	@tools/figures

lib: build/libblackboxlog.a ## the archive that C and Rust programs link, for x86-64: build/libblackboxlog.a

crate: build/libblackboxlog.rlib ## the Rust crate over it: build/libblackboxlog.rlib

tool: build/blackbox ## the program blackbox: build/blackbox

# the command looks itself whether there is something to do, and leaves the file as it is if not
build/libblackboxlog.a: FORCE
	@tools/archive

build/libblackboxlog.rlib: build/libblackboxlog.a $(CRATE)
	@$(RUSTC) --crate-type rlib --crate-name blackboxlog --cfg 'feature="std"' rust/blackboxlog/src/lib.rs -o $@

build/blackbox.x86-64: build/libblackboxlog.rlib $(TOOL)
	@$(RUSTC) -C strip=symbols --crate-name blackbox --extern blackboxlog=build/libblackboxlog.rlib rust/blackbox/src/main.rs -o $@

# where programs for x86-64 need an emulator, a command that calls it
build/blackbox: build/blackbox.x86-64
	@tools/x86 command blackbox.x86-64 >$@.new
	@[ -s $@.new ] || cp $< $@.new
	@chmod 755 $@.new && mv $@.new $@

install: lib tool ## header, archive, pkg-config file and blackbox, under PREFIX=DIR (/usr/local)
	@mkdir -p $(INTO)/include $(INTO)/lib/pkgconfig $(INTO)/bin
	@install -m 644 include/blackboxlog.h $(INTO)/include
	@install -m 644 build/libblackboxlog.a $(INTO)/lib
	@sed 's|@PREFIX@|$(abspath $(PREFIX))|; s|@VERSION@|$(VERSION)|' tools/blackboxlog.pc.in >$(INTO)/lib/pkgconfig/blackboxlog.pc
	@install -m 755 build/blackbox $(INTO)/bin
	@if head -c 2 build/blackbox | grep -q '#!'; then install -m 755 build/blackbox.x86-64 $(INTO)/bin; fi
	@echo "installed under $(INTO)"

demo: tool build/demo/recorder ## the main job: record a voyage, pull the plug, see what is found; PLUG=N pulls it after write N
	@demo/run $(PLUG)

build/demo/recorder: build/libblackboxlog.a demo/recorder.c include/blackboxlog.h
	@mkdir -p build/demo
	@tools/x86 cc -std=gnu11 -Wall -Wextra -O2 -Iinclude demo/recorder.c -Lbuild -lblackboxlog -o $@

bench: lib ## times beside the same log by hand in C, memcpy, liblzma and libpmemlog
	@bench/run

clean: ## remove all that was made; what was fetched stays
	rm -rf target crates/*/out
	[ ! -d build ] || find build -mindepth 1 -maxdepth 1 ! -name x86-64 -exec rm -rf {} +
