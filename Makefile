# The commands of the repository; `make` alone lists them.
.PHONY: help run test test-aarch64 program lib install uninstall clean pc soak bench cases reader fmt

PREFIX = /usr/local
DESTDIR =
# What the archive is for: nothing, for x86-64, or one of the others.
TARGET =
TARGETS = aarch64-linux-gnu aarch64-linux-android
ifneq ($(filter-out $(TARGETS),$(TARGET)),)
$(error TARGET is one of $(TARGETS), or left out for x86-64, and not '$(TARGET)')
endif
archive = $(if $(TARGET),target/$(TARGET),target/staticlib)/libsuntimpani.a
# Where an archive is installed below PREFIX: each target has a folder of its own, and they share the header.
libdir = lib$(TARGET:%=/%)
# The one place of the version is the Rust package, since cargo takes it from there.
VERSION = $(shell sed -n 's/^version = "\(.*\)"/\1/p' bindings/rust/Cargo.toml)
# Prints the pkg-config file.
PC = sed -e 's|@PREFIX@|$(PREFIX)|' -e 's|@LIBDIR@|$(libdir)|' -e 's|@VERSION@|$(VERSION)|' include/suntimpani.pc.in

# On an AArch64 machine the tests link the archive for that, of the same module.
ifeq ($(shell uname -m),aarch64)
for_tests = targets/aarch64/archive $(1) aarch64-linux-gnu
tested = target/aarch64-linux-gnu/libsuntimpani.a
else
for_tests = :
endif

# Generated sections of a soak; the seed to repeat one, and the turn to begin at.
N = 1000000
SEED =
FROM =
# What is timed: everything, or with TABLE=rows the finds in long functions alone, with TABLE=frames the frames of traces, with TABLE=ask
# single addresses of sections that nobody checked, with TABLE=why runs of sframe why.
TABLE =

# What a crate is made of, with the crates that it knows: it is proved again only where one of these files is newer.
crates_of = $(wildcard $(addprefix crates/,$(1) $(shell sed -nE 's/^$(1)( staticlib)?://p' crates.txt)))
parts_of = crates.txt $(shell find $(crates_of) -name out -prune -o '(' -name '*.rt' -o -name '*.antt' ')' -print) $(shell command -v rt)

help:
	@echo "make run        prove and build the program sframe, and ask it about a recorded crash"
	@echo "make test       the gate: proofs, must-fail edits, programs, and the library against the reader (bash .ci/run)"
	@echo "make test-aarch64"
	@echo "                the archive for AArch64 under an emulator, which the gate tries only where it finds one"
	@echo "make lib        prove the library and build target/staticlib/libsuntimpani.a;"
	@echo "                TARGET=aarch64-linux-gnu or aarch64-linux-android: for AArch64, target/TARGET/libsuntimpani.a"
	@echo "make program    prove and build target/bin/sframe, which bin/sframe starts"
	@echo "make install    put both, the header and a pkg-config file below PREFIX ($(PREFIX));"
	@echo "                TARGET=..: that archive, below PREFIX/lib/TARGET, and no program"
	@echo "make uninstall  take them away again; TARGET=..: that archive"
	@echo "make clean      remove target/, what the toolchain keeps in crates/*/out, and what cargo built"
	@echo "make pc         print the pkg-config file"
	@echo "make soak       compare the library with the reader for longer: N=$(N) sections, SEED=.. to repeat a run"
	@echo "make bench      the library's time against the reader's, and its use of the stack; TABLE=rows, TABLE=frames, TABLE=ask or TABLE=why for a part"
	@echo "                TARGET=..: the size of that archive and its use of the stack, under an emulator"
	@echo "make cases      make the stored cases and their expected output anew, by the independent reader"
	@echo "make reader     the independent reader by itself: its own tests, and the public dumps"
	@echo "make fmt        lay every source and proof file out"

run: program
	@examples/recorded_crash

test:
	bash .ci/run

test-aarch64: target/staticlib/libsuntimpani.a
	@tests/aarch64/run

program: target/bin/sframe

# Each program of the repository; beside sframe they are for the tests.
PROGRAMS = $(patsubst crates/%/src/main.rt,%,$(wildcard crates/*/src/main.rt))

.SECONDEXPANSION:
$(PROGRAMS:%=target/bin/%): target/bin/%: $$(call parts_of,$$*)
	@tools/prove program $*
	@touch $@

lib: $(archive) $(tested)

target/staticlib/libsuntimpani.a: $(call parts_of,suntimpani_c)
	@tools/prove library suntimpani
	@touch $@

$(TARGETS:%=target/%/libsuntimpani.a): target/staticlib/libsuntimpani.a include/suntimpani.h $(wildcard targets/aarch64/*)
	@targets/aarch64/archive suntimpani $(@:target/%/libsuntimpani.a=%)

install: $(archive) $(if $(TARGET),,target/bin/sframe)
	install -d "$(DESTDIR)$(PREFIX)/$(libdir)/pkgconfig" "$(DESTDIR)$(PREFIX)/include"
	install -m 644 $(archive) "$(DESTDIR)$(PREFIX)/$(libdir)"
	install -m 644 include/suntimpani.h "$(DESTDIR)$(PREFIX)/include"
	$(PC) >"$(DESTDIR)$(PREFIX)/$(libdir)/pkgconfig/suntimpani.pc"
ifeq ($(TARGET),)
	install -d "$(DESTDIR)$(PREFIX)/bin"
	install -m 755 bin/sframe "$(DESTDIR)$(PREFIX)/bin"
	install -m 755 target/bin/sframe "$(DESTDIR)$(PREFIX)/bin/sframe-proved"
endif

# The header goes with the last archive below PREFIX.
uninstall:
	rm -f "$(DESTDIR)$(PREFIX)/$(libdir)/libsuntimpani.a" "$(DESTDIR)$(PREFIX)/$(libdir)/pkgconfig/suntimpani.pc"
ifeq ($(TARGET),)
	rm -f "$(DESTDIR)$(PREFIX)/bin/sframe" "$(DESTDIR)$(PREFIX)/bin/sframe-proved"
endif
	@for folder in lib $(TARGETS:%=lib/%); do \
	    if [ -f "$(DESTDIR)$(PREFIX)/$$folder/libsuntimpani.a" ]; then exit; fi; \
	done; rm -f "$(DESTDIR)$(PREFIX)/include/suntimpani.h"

clean:
	rm -rf target tests/target bindings/rust/target crates/*/out

pc:
	@$(PC)

soak: lib
	cd tests && cargo run --quiet --release --offline --locked --features library --bin soak -- $(N) $(SEED) $(FROM)

# Under an emulator there are no times.
ifneq ($(TARGET),)
bench: $(archive)
	@size $(archive)
	@tests/aarch64/compare $(archive) stack
else
bench: lib program
	@tools/prove library measure
	@$(call for_tests,measure)
	@tools/prove library measure_lines
	@$(call for_tests,measure_lines)
	cd tests && cargo run --quiet --release --offline --locked --features library,measure --bin bench -- $(TABLE)
endif

cases:
	cd tests && cargo run --quiet --release --offline --locked --bin cases -- write

reader:
	cd tests && cargo test --release --offline --locked

fmt:
	@for folder in crates/*/; do (cd "$$folder" && rt fmt) || exit; done
	cd tests && cargo fmt
	cd bindings/rust && cargo fmt
