# make run: replay a sample log. make test: the whole gate. make help: all targets.
CC ?= cc
CFLAGS ?= -O2
WARNINGS = -std=c11 -Wall -Wextra -pedantic -Werror
LIBPALETTE ?= target/lib/libpalette.a
REPLAY ?= target/bin/replay
TOOL ?= target/tool/palette
VERSION = $(shell sed -n 's/^.define PALETTE_VERSION_[A-Z]* //p' include/palette.h | paste -s -d . -)
SECONDS ?= 600
SEED ?= 0x7a19e261
PREFIX ?= /usr/local
DESTDIR ?=
CALLS ?= target/bin/calls
COMPARE = tests/target/release/compare
CASES = tests/target/release/cases
DRIVER = tests/target/release/tool
CRATES = crates.txt $(wildcard crates/*/src/* crates/*/specs/* crates/*/proofs/* crates/*/proofs/*/* crates/*/proofs/*/*/*)
# What the scripts and the comparison's build find the library and the programs by.
export LIBPALETTE REPLAY CALLS TOOL CC
# It would move what cargo builds to another folder.
unexport CARGO_BUILD_TARGET

.PHONY: run help test prove lib replay calls tool examples compare-build compare test-examples time fuzz test-c test-tool test-readme test-trace seeded bench install fmt clean
# rt uses every core by itself, and two of them at once would wait for each other's crates.
.NOTPARALLEL:

# The sample log, as the printing program prints it and as the tool shows it.
run: $(REPLAY) $(TOOL) ## replay a sample log
	@mkdir -p target/examples
	$(TOOL) assemble --log target/examples/first.log examples/first.txt
	$(REPLAY) <target/examples/first.log
	$(TOOL) run --end target/examples/first.snapshot fresh target/examples/first.log
	$(TOOL) show target/examples/first.snapshot

help: ## list the targets
	@awk -F ':.*## ' '/^[a-z-]+:.*## / { printf "%-15s %s\n", $$1, $$2 }' Makefile

test: ## the whole gate; scripts/test SUITE.. runs suites by themselves
	@scripts/test

prove: ## prove the crates that have changed
	rt all check

# The prover says hundreds of lines: they go to target/NAME.say, and are shown only if it refuses something.
quietly = @mkdir -p target && echo "$(1), what the prover says in target/$(2).say" && { $(3) >target/$(2).say 2>&1 || { cat target/$(2).say; false; }; }

lib: $(LIBPALETTE) ## prove and build the static library for C
target/lib/libpalette.a: $(CRATES) scripts/library
	$(call quietly,proving and building the library,lib,scripts/library)

replay: $(REPLAY) ## prove and build the printing program
target/bin/replay: $(CRATES) scripts/program
	$(call quietly,proving and building the printing program,replay,scripts/program replay)

calls: $(CALLS) ## prove and build the program that plays single calls
target/bin/calls: $(CRATES) scripts/program
	$(call quietly,proving and building the program of single calls,calls,scripts/program calls)

tool: $(TOOL) ## build the palette tool
target/tool/palette: $(wildcard tool/*.c tool/*.h) include/palette.h $(LIBPALETTE)
	@mkdir -p $(@D)
	@$(CC) $(WARNINGS) $(CFLAGS) -Iinclude tool/*.c $(LIBPALETTE) $(LDLIBS) -o $@

target/examples/%.log: examples/%.txt $(TOOL)
	@mkdir -p $(@D)
	@$(TOOL) assemble --log $@ $<

target/examples/restore: examples/restore.c include/palette.h $(LIBPALETTE)
	@mkdir -p $(@D)
	@$(CC) $(WARNINGS) $(CFLAGS) -Iinclude examples/restore.c $(LIBPALETTE) $(LDLIBS) -o $@

examples: target/examples/first.log target/examples/second.log target/examples/third.log target/examples/restore ## the sample logs and the example program

# Its build sees whether the library has changed.
compare-build: $(LIBPALETTE) ## build the comparison with the second model
	cargo build --manifest-path tests/Cargo.toml --target-dir tests/target -p compare --release --offline --quiet

compare: compare-build $(REPLAY) $(CALLS) ## compare library and programs with the second model
	$(COMPARE) --replay $(REPLAY) --calls $(CALLS)

test-examples: compare-build $(REPLAY) ## play the examples of docs/FORMATS.md and the stored cases
	$(CASES) --replay $(REPLAY) docs/FORMATS.md tests/stored

time: compare-build ## how long the library takes beside the second model
	$(COMPARE) --time

fuzz: compare-build $(REPLAY) $(CALLS) ## the comparison for SECONDS=n from SEED=s
	$(COMPARE) --seconds $(SECONDS) --seed $(SEED) --replay $(REPLAY) --calls $(CALLS)

test-c: $(LIBPALETTE) $(REPLAY) $(TOOL) ## the C header, the installed files and the example program
	tests/c/run

test-tool: compare-build ## the palette tool
	tests/tool/run --driver $(DRIVER)

test-readme: $(LIBPALETTE) $(REPLAY) $(TOOL) ## README's programs and the paths that the documents name
	tests/readme

test-trace: ## the names in docs/TRACE.md
	tests/trace

# Each mistake must be caught.
seeded: compare-build ## mistakes seeded into the model, the plain program, the code and the tool
	tests/seeded-mistakes
	tests/seeded-bugs
	tests/seeded-code
	tests/seeded-tool

target/bench/bench: bench/bench.c bench/plain.c bench/plain.h include/palette.h $(LIBPALETTE)
	@mkdir -p $(@D)
	$(CC) $(WARNINGS) -O3 -falign-functions=64 -Iinclude -Ibench bench/bench.c bench/plain.c $(LIBPALETTE) $(LDLIBS) -o $@

target/bench/plans: bench/plans.c bench/plain.c bench/plain.h include/palette.h $(LIBPALETTE)
	@mkdir -p $(@D)
	$(CC) $(WARNINGS) -O3 -falign-functions=64 -Iinclude -Ibench bench/plans.c bench/plain.c $(LIBPALETTE) $(LDLIBS) -o $@

bench: target/bench/bench target/bench/plans ## time the library beside a plain C program
	target/bench/bench
	target/bench/plans

install: $(LIBPALETTE) $(REPLAY) $(TOOL) ## header, library, programs, manual page and pkg-config file, to PREFIX=..
	install -d $(DESTDIR)$(PREFIX)/include $(DESTDIR)$(PREFIX)/lib/pkgconfig $(DESTDIR)$(PREFIX)/bin $(DESTDIR)$(PREFIX)/share/man/man1
	install -m 644 include/palette.h $(DESTDIR)$(PREFIX)/include/palette.h
	install -m 644 $(LIBPALETTE) $(DESTDIR)$(PREFIX)/lib/libpalette.a
	install -m 755 $(REPLAY) $(DESTDIR)$(PREFIX)/bin/replay
	install -m 755 $(TOOL) $(DESTDIR)$(PREFIX)/bin/palette
	install -m 644 tool/palette.1 $(DESTDIR)$(PREFIX)/share/man/man1/palette.1
	sed -e 's|@PREFIX@|$(PREFIX)|' -e 's|@VERSION@|$(VERSION)|' palette.pc.in >target/palette.pc
	install -m 644 target/palette.pc $(DESTDIR)$(PREFIX)/lib/pkgconfig/palette.pc

fmt: ## format the crates
	for crate in crates/*; do (cd $$crate && rt fmt) || exit; done

clean: ## remove all that was built
	rm -rf target tests/target crates/*/out
