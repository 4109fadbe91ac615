# make: prove every crate, build the archive for C and Rust and the command.  make run: the main job on the example year.
# make install PREFIX=/usr/local DESTDIR=: header, archive, pkg-config file and command.  make uninstall: without them.
# make test: the gate, what CI runs; its last line is 'N passed, 0 failed'.  make wrong: more wrong programs, each to be refused.
# make fuzz SECONDS=600 SEED=7: the library against the independent side for so long.  make bench: its times beside Rust code's and,
# where php is installed, PHP's, and its instructions, where valgrind is; make bench ROUNDS=1 is a trial in seconds.
.PHONY: all programs archive command run test wrong compare checks fuzz bench install uninstall clean needed always
# two runs of rt at once would write the same files
.NOTPARALLEL:
.DELETE_ON_ERROR:

SHELL := /bin/bash
BUILD := $(CURDIR)/build
ARCHIVE := $(BUILD)/libtonschnecke.a
PROVED := $(BUILD)/proved.a
COMPILE := gcc -std=c99 -O2 -fPIC -Wall -Wextra -Werror -pedantic -Iinclude
# no warning is let through here; a user's own build of the wrapper is not kept from going on
CARGO := RUSTFLAGS=-Dwarnings CARGO_TARGET_DIR=$(BUILD)/cargo TONSCHNECKE_LIB_DIR=$(BUILD) cargo
LIBRARIES := $(patsubst crates/%/src/lib.rt,%,$(wildcard crates/*/src/lib.rt))
SOURCES = $(wildcard $(foreach part,src specs proofs,$(LIBRARIES:%=crates/%/$(part))))
PROGRAMS := $(patsubst crates/%/src/main.rt,%,$(wildcard crates/*/src/main.rt))
PREFIX ?= /usr/local
DESTDIR ?=
VERSION := $(shell sed -n 's/^version = "\(.*\)"$$/\1/p' rust/Cargo.toml)
INSTALLED := bin/tonschnecke lib/libtonschnecke.a include/tonschnecke.h lib/pkgconfig/tonschnecke.pc
SECONDS ?= 60
SEED ?= 1

all: command programs

# says what is missing, before anything is proved
needed:
	@tools/need.sh rt cargo gcc

# what C and Rust link: every library proved, and what is C beside it
archive: $(ARCHIVE)

$(ARCHIVE): $(PROVED) $(BUILD)/sources-c
	@rm -rf $(BUILD)/c && mkdir $(BUILD)/c
	@for file in c/*.c; do $(COMPILE) -c $$file -o $(BUILD)/$${file%.c}.o || exit 1; done
	@cp $(PROVED) $@
	@ar rcs $@ $(BUILD)/c/*.o

# rt lib proves what tonschnecke stands on, the lowest first, and builds the archive
$(PROVED): $(BUILD)/sources
	@echo 'Proving the library, crate by crate. build/prove.log has the details.'
	@tools/rt.sh build/prove.log crates/tonschnecke lib
	@cp crates/tonschnecke/out/libtonschnecke.a $@

# the kit or the compiler, and the sums of what it gets: written anew only where something changed, and then what is made of it is
# too old
$(BUILD)/sources: SUMS = rt version; sha256sum crates.txt; find $(SOURCES) -type f -exec sha256sum {} + | sort -k 2
$(BUILD)/sources-c: SUMS = gcc --version; echo '$(COMPILE)'; sha256sum c/*.c include/tonschnecke.h
$(BUILD)/sources $(BUILD)/sources-c: always
	@tools/need.sh rt gcc
	@mkdir -p $(BUILD)
	@{ $(SUMS); } > $@.new
	@cmp -s $@.new $@ || cp $@.new $@

# the archive inside a program for users
command: needed archive
	@$(CARGO) build --quiet --release --manifest-path rust/Cargo.toml
	@install -m 755 $(BUILD)/cargo/release/tonschnecke $(BUILD)/tonschnecke

# proved, linked and run: what a program prints for its file stdin is its file stdout
programs: needed
	@echo 'Proving the programs. build/prove-nodes.log and the like have the details.'
	@set -o pipefail; for program in $(PROGRAMS); do \
	    folder=crates/$$program; \
	    tools/rt.sh build/prove-$$program.log $$folder run < $$folder/stdin || exit 1; \
	    $$folder/out/$$program < $$folder/stdin | cmp - $$folder/stdout || exit 1; \
	done

run: command
	@examples/run.sh

# the proved library beside a side written from the specification alone, on one core; all other tests on the others meanwhile
compare: command programs
	$(CARGO) build --quiet --release --manifest-path tests/Cargo.toml --bin differential
	@echo 'Comparing the library with the independent side in the background.'
	@$(BUILD)/cargo/release/differential > $(BUILD)/differential.log 2>&1 & \
	$(MAKE) --no-print-directory checks; status=$$?; \
	wait $$! || status=1; cat $(BUILD)/differential.log; exit $$status

# of what is built: the programs, the C examples and what is installed as a user runs them; the command, the wrapper, and what they
# are tested with
checks:
	for test in tests/programs/*.sh; do $$test || exit 1; done
	$(CARGO) test --quiet --release --manifest-path rust/Cargo.toml
	$(CARGO) test --quiet --release --manifest-path tests/Cargo.toml
	$(CARGO) test --quiet --release --manifest-path bench/Cargo.toml

fuzz: needed archive
	$(CARGO) run --quiet --release --manifest-path tests/Cargo.toml --bin differential -- --seconds $(SECONDS) --seed $(SEED)

bench: needed archive
	$(CARGO) run --quiet --profile measure --manifest-path bench/Cargo.toml $(if $(ROUNDS),-- --rounds $(ROUNDS))

# rt ci is the verdict on every crate, edit and program: its last line is printed last. An edit that cannot be applied or read
# fails nothing there, so it fails here. The archive under test is built after it, of the same files.
test: needed
	@echo 'Running rt ci: what it proved of the same files on this machine before is not proved again. build/ci.log has the details.'
	@tools/rt.sh build/ci.log . ci || { tail -n 1 build/ci.log; exit 1; }
	@tools/bad.sh build/ci.log
	@rm -f $(PROVED)
	$(MAKE) --no-print-directory compare
	@tail -n 1 build/ci.log

# more wrong programs than the gate tries, each over what a check of its crate kept
wrong: needed
	tools/wrong.sh

# builds only what is missing: what is there needs neither rt nor cargo
install:
	@[ -f $(ARCHIVE) ] && [ -f $(BUILD)/tonschnecke ] || $(MAKE) --no-print-directory command
	install -d $(foreach file,$(INSTALLED),"$(DESTDIR)$(PREFIX)/$(dir $(file))")
	install -m 755 $(BUILD)/tonschnecke "$(DESTDIR)$(PREFIX)/bin/tonschnecke"
	install -m 644 $(ARCHIVE) "$(DESTDIR)$(PREFIX)/lib/libtonschnecke.a"
	install -m 644 include/tonschnecke.h "$(DESTDIR)$(PREFIX)/include/tonschnecke.h"
	sed 's|@PREFIX@|$(PREFIX)|; s|@VERSION@|$(VERSION)|' tonschnecke.pc.in > $(BUILD)/tonschnecke.pc
	install -m 644 $(BUILD)/tonschnecke.pc "$(DESTDIR)$(PREFIX)/lib/pkgconfig/tonschnecke.pc"

uninstall:
	rm -f $(foreach file,$(INSTALLED),"$(DESTDIR)$(PREFIX)/$(file)")

clean:
	rm -rf $(BUILD) crates/*/out
