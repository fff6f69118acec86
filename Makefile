# What is made for use goes to build/. The prover keeps its own work in out/ of each crate.

PREFIX = /usr/local
DESTDIR =
root = $(DESTDIR)$(PREFIX)
CC = gcc
CFLAGS = -std=c11 -O2 -Wall -Wextra -Wpedantic
RUSTC = rustc

# The version, from the header. The programs have it from crates/process, and tests/arguments.sh holds them to the header.
version := $(shell sed -n 's/.*define CHISELBROW_VERSION "\(.*\)"/\1/p' include/chiselbrow.h)
# The names under which the library's manual page is to be found.
functions := $(shell sed -n '/SH NAME/,/SH SYNOPSIS/p' man/chiselbrow.3 | grep -o 'chiselbrow_[a-z_]*')

library = build/libchiselbrow.a
shared = build/libchiselbrow.so.$(version)
soname = libchiselbrow.so.$(firstword $(subst ., ,$(version)))
programs = build/chiselbrow build/chiselbrow-renew build/almanac
hosts = build/store build/rows
test_tools = build/independent build/store_check build/convert_check build/exchange_check build/exchange_check_fast \
             build/null_check build/builders build/incident build/feed build/faults.so
bench_tools = build/bench build/bench_exchange build/bench_heads build/bench_sun build/c_program build/c_renew \
              build/c_compare build/c_pentads build/c_submerged
# The longest first, so that two at a time end together.
tests = tests/mixups.sh tests/program.sh tests/every_day.sh tests/convert.sh tests/renew.sh tests/every_year.sh \
        tests/pipes.sh tests/damaged.sh tests/exchange.sh tests/every_comparison.sh tests/every_submerged.sh \
        tests/every_pentad.sh tests/faults.sh tests/cases.sh tests/sun.sh tests/descriptors.sh tests/arguments.sh \
        tests/manual.sh tests/install.sh tests/shared.sh tests/shared.py tests/header.sh tests/host.sh tests/rows.sh \
        tests/printed_heads.sh build/null_check build/builders build/incident
crates := crates.txt $(shell find crates \( -name must-fail -o -name out \) -prune -o -type f -print)

# A run of rt takes all cores, and a second one would only wait for the same crates.
.NOTPARALLEL:
# So that nothing is printed after the gate's last line.
MAKEFLAGS += --no-print-directory

.PHONY: all test-tools test bench sky run install clean

# The programs, the library as an archive and shared, and the example hosts.
all: $(programs) $(library) $(shared) $(hosts)

# What only the tests need.
test-tools: $(test_tools)

# Every test, two at a time, and last the gate.
test: all test-tools
	@printf '%s\n' $(tests) | xargs -P 2 -I % sh -c '% || { echo "% failed" >&2; exit 255; }'
	@tests/gate.sh

# The storing step, the conversion, the exchange, heads, the sun and the programs, beside C written by hand.
bench: all $(bench_tools)
	@bench/run.sh

# The almanac beside true new moons and solstices. No part of `test`: it needs a Python with ephem, the first in PATH or
# the distribution's own.
ephem_python = $(shell for python in python3 /usr/bin/python3; do \
                       $$python -c 'import ephem' 2> /dev/null && echo $$python && break; done)
sky:
	@test -n "$(ephem_python)" || { echo 'make sky needs python3 with ephem (Debian: python3-ephem)' >&2; exit 1; }
	@$(MAKE) --silent build/almanac < /dev/null >&2
	@$(ephem_python) -B tests/sky build/almanac

# The program, from standard input to standard output; what building it says goes to standard error. That the input
# stopped being records is the input's affair, and no error of make's.
run:
	@$(MAKE) --silent build/chiselbrow < /dev/null >&2
	@build/chiselbrow 2> build/run.log; status=$$?; cat build/run.log >&2; \
	    [ $$status -eq 0 ] || grep -q ': no record at byte' build/run.log

# Header, libraries, programs, manual pages, and a file for pkg-config.
install: all
	install -d $(addprefix $(root)/,bin include lib/pkgconfig share/man/man1 share/man/man3)
	install -m 644 include/chiselbrow.h $(root)/include
	install -m 644 $(library) $(shared) $(root)/lib
	ln -sf $(notdir $(shared)) $(root)/lib/$(soname)
	ln -sf $(soname) $(root)/lib/libchiselbrow.so
	install -m 755 $(programs) build/store $(root)/bin
	install -m 644 man/chiselbrow.1 man/chiselbrow-renew.1 man/almanac.1 $(root)/share/man/man1
	install -m 644 man/chiselbrow.3 $(root)/share/man/man3
	for function in $(functions); do \
	    echo '.so man3/chiselbrow.3' > $(root)/share/man/man3/$$function.3 || exit 1; \
	done
	sed 's|@PREFIX@|$(PREFIX)|; s|@VERSION@|$(version)|' chiselbrow.pc.in > $(root)/lib/pkgconfig/chiselbrow.pc

# Everything that was made.
clean:
	rm -rf build crates/*/out

build:
	mkdir -p build

# A crate proved with all that it stands on, and archived for C. What the prover says is kept, and shown if it refuses.
build/lib%.a: $(crates) | build
	@echo "proving $* (what the prover says: build/$*.log)"
	@cd crates/$* && rt lib < /dev/null > ../../build/$*.log 2>&1 || { cat ../../build/$*.log >&2; exit 1; }
	@cp crates/$*/out/lib$*.a $@

# The storing step, the conversion and the exchange, each an object.
objects = citation_c conversion_c exchange_c
$(library): $(objects:%=build/lib%.a)
	cd build && for object in $(objects); do ar x lib$$object.a || exit 1; done && ar rcs $(notdir $@) $(objects:%=%.o)

# It needs no other library, and exports what the list says. Under its other names it is a copy: the gate refuses links.
$(shared): $(library) chiselbrow.map include/chiselbrow.h
	$(CC) -shared -nostdlib -Wl,-soname,$(soname),-z,defs,--version-script=chiselbrow.map -o $@ \
	    -Wl,--whole-archive $(library)
	cp $@ build/$(soname)
	cp $@ build/libchiselbrow.so

# A program proved with all that it stands on, compiled and linked. rt runs it once it is linked, so it is asked for no
# more than its version.
build/chiselbrow: crate = installed_chiselbrow
build/chiselbrow-renew: crate = installed_renew
build/almanac: crate = installed_almanac
$(programs): $(crates) | build
	@echo "proving $(@F) (what the prover says: $@.log)"
	@cd crates/$(crate) && rt run -- --version < /dev/null > ../../$@.log 2>&1 || { cat ../../$@.log >&2; exit 1; }
	@cp crates/$(crate)/out/$(crate) $@

$(hosts): build/%: examples/%.c include/chiselbrow.h $(library)
	$(CC) $(CFLAGS) -Iinclude -o $@ $< $(library)

build/independent: $(wildcard tests/independent/*.rs) | build
	$(RUSTC) --edition 2021 -O -o $@ tests/independent/main.rs

build/null_check: tests/null.c include/chiselbrow.h $(library)
	$(CC) $(CFLAGS) -Iinclude -o $@ $< $(library)

frame_checks = build/store_check build/convert_check build/exchange_check

$(frame_checks) build/builders build/incident: build/%: tests/%.c include/chiselbrow.h $(library)
	$(CC) $(CFLAGS) -Iinclude -o $@ $< $(library)

# For this host floats below the normal ones are zero.
build/exchange_check_fast: tests/exchange_check.c include/chiselbrow.h $(library)
	$(CC) $(CFLAGS) -ffast-math -Iinclude -o $@ $< $(library)

$(frame_checks) build/exchange_check_fast: tests/frames.h

build/feed: tests/feed.c | build
	$(CC) $(CFLAGS) -o $@ $<

build/faults.so: tests/faults.c | build
	$(CC) $(CFLAGS) -fPIC -shared -o $@ $<

bench_common = bench/timing.c bench/random.c

build/bench: bench/bench.c bench/records.c bench/c_store.c bench/c_convert.c $(bench_common) $(wildcard bench/*.h) \
             include/chiselbrow.h $(library) build/from_page.a
	$(CC) $(CFLAGS) -Iinclude -o $@ $(filter %.c,$^) $(filter %.a,$^)

build/bench_exchange: bench/bench_exchange.c bench/c_exchange.c $(bench_common) $(wildcard bench/*.h) \
                      include/chiselbrow.h $(library)
	$(CC) $(CFLAGS) -Iinclude -o $@ $(filter %.c,$^) $(library)

build/bench_heads build/bench_sun: build/bench_%: bench/bench_%.c bench/c_%.c $(bench_common) $(wildcard bench/*.h) \
                                  build/libbench_%.a
	$(CC) $(CFLAGS) -o $@ $(filter %.c,$^) $(filter %.a,$^)

# The storing step with the head of a citation by ordinal read from the page, to be measured: a copy, changed by a patch
# and proved as well. Its function is renamed, so that both can be linked.
build/from_page.a: bench/from_page.patch $(crates) | build
	@echo "proving the storing step with heads from the page (what the prover says: build/from_page.log)"
	@rm -rf build/from_page && mkdir build/from_page
	@tar -c --exclude=out crates crates.txt | tar -x -C build/from_page
	@cd build/from_page && patch -sp1 < ../../bench/from_page.patch
	@cd build/from_page/crates/citation_c && rt lib < /dev/null > ../../../from_page.log 2>&1 || \
	    { cat ../../../from_page.log >&2; exit 1; }
	@objcopy --redefine-sym chiselbrow_store=store_from_page build/from_page/crates/citation_c/out/libcitation_c.a $@
	@rm -r build/from_page

build/c_program: bench/c_program.c bench/c_store.c $(wildcard bench/*.h) | build
	$(CC) $(CFLAGS) -o $@ $(filter %.c,$^)

build/c_renew build/c_compare build/c_pentads build/c_submerged: build/%: bench/%.c $(wildcard bench/*.h) | build
	$(CC) $(CFLAGS) -o $@ $<
