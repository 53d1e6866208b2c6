# Tubochre. `make run` proves, builds and runs the main job; `make test` is the whole gate.
RT = rt
CC = cc
CXX = c++
PREFIX = /usr/local

# The version stands in the header, and nowhere else.
VERSION = $(shell sed -n 's/^.define TUBOCHRE_VERSION_[A-Z]* //p' include/tubochre.h | paste -sd. -)

# What the proved crates are made into. The archive of the records is installed under a name of the library's own.
ARCHIVE = target/staticlib/libtubochre.a
RECORDS = target/staticlib/librecords.a
LISTING = target/bin/listing

# Where the C programs go, and how they are compiled.
OUT = target/host
CFLAGS = -O2 -g
WARNINGS = -Wall -Wextra -Wpedantic -Werror
FOLDERS = include programs bench tests/calls tests/support tests/reference
BUILD = $(CC) -std=c11 $(WARNINGS) $(CFLAGS) $(addprefix -I,$(FOLDERS))

HEADERS = $(wildcard include/*.h programs/*.h bench/*.h tests/*/*.h)
PARTS = $(addprefix programs/,common.c text.c words.c places.c refusals.c lassos.c tray.c merge.c complement.c \
	print.c progress.c)
SUPPORT = $(addprefix tests/support/,arguments.c draw.c expect.c fence.c rings.c room.c stack.c)
REFERENCE = $(addprefix tests/reference/,reference.c reference_lasso.c reference_tray.c reference_merge.c \
	reference_listing.c)
CALLS = $(addprefix $(OUT)/,test_calls test_forks test_rooms test_limits test_null test_tray test_merge)
TESTS = $(CALLS) $(addprefix $(OUT)/,test_header test_header_cxx test_records test_places compare compare_listing)

.PHONY: run test test-c tests lib host bench install clean

# rt keeps what it has proved in each crate's out/, so one rule works at a time; rt uses all cores by itself.
.NOTPARALLEL:

run: $(LISTING)
	$(LISTING) < examples/pattern-a.txt

# The gate: proofs, must-fail edits, programs, and test-c.
test:
	.ci/run

# The tests in C alone, on the archives and the listing program.
test-c: lib $(LISTING)
	tests/run_host.sh

lib: $(ARCHIVE) $(RECORDS)

# The programs for people, and the programs that test the calls (these ask for a C++ compiler too).
host: $(OUT)/tubochre-bench

tests: $(TESTS)

bench: $(OUT)/measure
	$(OUT)/measure
	bench/instructions.sh $(OUT)/measure

SOURCES = crates.txt $(shell find crates -name out -prune -o -name '*.rt' -print -o -name '*.antt' -print)

# An archive is made of the crate that exports a library's calls, once that crate and those below it are proved.
target/staticlib/lib%.a: $(SOURCES)
	cd crates/$*_c && $(RT) lib
	@mkdir -p $(@D)
	cp crates/$*_c/out/lib$*_c.a $@

# A program is built where it is run, here on no input.
$(LISTING): $(SOURCES)
	cd crates/listing && $(RT) run < /dev/null > /dev/null
	@mkdir -p $(@D)
	cp crates/listing/out/listing $@

$(OUT)/tubochre-bench: programs/tubochre_bench.c $(PARTS) $(ARCHIVE)
$(OUT)/test_header: tests/calls/test_header.c
$(CALLS): $(OUT)/%: tests/calls/%.c tests/calls/test.c $(SUPPORT) $(ARCHIVE) $(RECORDS)
$(OUT)/test_records: tests/calls/test_records.c tests/calls/test.c $(SUPPORT) $(ARCHIVE) $(RECORDS)
$(OUT)/test_places: tests/programs/test_places.c programs/places.c $(SUPPORT) $(ARCHIVE)
$(OUT)/compare $(OUT)/compare_listing: $(OUT)/%: tests/reference/%.c $(REFERENCE) $(SUPPORT) $(ARCHIVE)
$(OUT)/measure: bench/measure.c bench/fast.c $(SUPPORT) $(ARCHIVE)

$(OUT)/%: $(HEADERS)
	@mkdir -p $(OUT)
	$(BUILD) $(filter %.c %.a,$^) -pthread -o $@

$(OUT)/test_header_cxx: tests/calls/test_header.c $(HEADERS)
	@mkdir -p $(OUT)
	$(CXX) -std=c++11 $(WARNINGS) $(CFLAGS) -Iinclude -x c++ $< -o $@

# Where it is installed: as one word, for pkg-config has no other.
PLACE = $(DESTDIR)$(abspath $(PREFIX))

install: $(ARCHIVE) $(RECORDS) $(LISTING) $(OUT)/tubochre-bench
	$(if $(filter 1,$(words $(PLACE))),,$(error PREFIX and DESTDIR have to name one folder, without blanks: '$(DESTDIR)' '$(PREFIX)'))
	install -d $(addprefix $(PLACE)/,bin include lib/pkgconfig share/doc/tubochre)
	install -m 755 $(OUT)/tubochre-bench $(PLACE)/bin/tubochre-bench
	install -m 755 $(LISTING) $(PLACE)/bin/tubochre-listing
	install -m 644 $(ARCHIVE) $(PLACE)/lib/libtubochre.a
	install -m 644 $(RECORDS) $(PLACE)/lib/libtubochre_records.a
	install -m 644 include/tubochre.h $(PLACE)/include/tubochre.h
	install -m 644 docs/RULES.md $(PLACE)/share/doc/tubochre/RULES.md
	sed -e 's|@PREFIX@|$(abspath $(PREFIX))|' -e 's|@VERSION@|$(VERSION)|' include/tubochre.pc.in > $(PLACE)/lib/pkgconfig/tubochre.pc

clean:
	rm -rf target crates/*/out
