# What a caller from C needs. The gate is .ci/run; nothing here is part of it. `rt`, a C compiler, objcopy of binutils, for test-c a compiler of C++ and,
# for test-rust and bench, cargo are on the path.
PREFIX ?= /usr/local
VERSION = 0.8.0
CC ?= cc
CXX ?= c++
CFLAGS ?= -O2
WARN = -std=c11 -Wall -Wextra -pedantic
CARGO ?= cargo
OBJCOPY ?= objcopy
CALLS ?= 120000
SEED ?= 1

build = target/c
archive = target/staticlib/libcapi.a
header = include/mogedorn.h

.PHONY: lib install example stack test-c test-rust test-refusals bench picks words withdraw bucket files clean-c

# Proves the library, with all below it, and writes the archive. Its functions are set to start at multiples of 64 bytes, for speed: see docs/PERFORMANCE.md.
define write-archive
cd crates/capi && rt lib
mkdir -p $(dir $(archive))
cp crates/capi/out/libcapi.a $(archive)
$(OBJCOPY) --set-section-alignment '.text.*=64' $(archive)
endef

lib:
	$(write-archive)

$(archive): crates.txt $(shell find crates -name out -prune -o -name '*.rt' -print)
	$(write-archive)

install: $(archive)
	install -d $(DESTDIR)$(PREFIX)/include $(DESTDIR)$(PREFIX)/lib/pkgconfig
	install -m 644 $(header) $(DESTDIR)$(PREFIX)/include/mogedorn.h
	install -m 644 $(archive) $(DESTDIR)$(PREFIX)/lib/libmogedorn.a
	sed 's|@PREFIX@|$(PREFIX)|; s|@VERSION@|$(VERSION)|' mogedorn.pc.in > $(DESTDIR)$(PREFIX)/lib/pkgconfig/mogedorn.pc

# A week in C; its output must be the one in the comment at its end.
example: $(build)/week
	$(build)/week > $(build)/week.out
	sed -n '/^Expected output:/,$${/^Expected output:/d;/^\*\//d;p}' examples/week.c | diff - $(build)/week.out
	cat $(build)/week.out

# The header's inline functions beside the entries that they call, as C99 and as C++11.
test-c: $(build)/week-c99 $(build)/week-c++11
	$(build)/week-c99
	$(build)/week-c++11

# The stack that each entry takes.
stack: $(build)/stack
	$(build)/stack

# The library against an independent model, on random calls.
test-rust: $(archive)
	MOGEDORN_LIB='$(abspath target/staticlib)' $(CARGO) run --quiet --release --manifest-path tests/rust/Cargo.toml --target-dir target/tests-rust -- $(SEED) $(CALLS)

# Whether the help page has each refusal of the definitions and the header, and says the same of each call.
test-refusals:
	sh tests/refusals.sh

# The benchmarks. OLD is an earlier archive to stand beside this one, one without join; its functions are set to multiples of 64 bytes too. Rust's loops start
# at multiples of 32, where they were fastest.
bench_run = MOGEDORN_LIB='$(abspath target/staticlib)' $(if $(OLD),MOGEDORN_OLD='$(abspath $(OLD))') RUSTFLAGS='-C llvm-args=-align-loops=32' $(CARGO) run --quiet --release --manifest-path bench/Cargo.toml --target-dir target/bench

# Against the same algorithm in Rust, and where libbrial-dev is installed against CUDD.
bench: $(archive)
	$(bench_run)

# What thousands of picks in a row cost, and of what; and as many calls of cheapest and closest.
picks: $(archive)
	$(bench_run) --bin picks

# How many working words either, both, only and join want.
words: $(archive)
	$(bench_run) --bin words

# What a withdrawal costs, by the nodes of the table.
withdraw: $(archive)
	$(bench_run) --bin withdraw

# What a table costs whose nodes share one bucket of the index.
bucket: $(archive)
	$(bench_run) --bin bucket

# What reading and converting a bids file costs.
files: $(archive)
	$(bench_run) --bin files

$(build)/week: examples/week.c $(header) $(archive)
	mkdir -p $(build)
	$(CC) $(CFLAGS) $(WARN) -Iinclude -o $@ examples/week.c $(archive)

$(build)/week-c99: tests/c/week.c $(header) $(archive)
	mkdir -p $(build)
	$(CC) $(CFLAGS) -std=c99 -Wall -Wextra -pedantic -Iinclude -o $@ tests/c/week.c $(archive)

$(build)/week-c++11: tests/c/week.c $(header) $(archive)
	mkdir -p $(build)
	$(CXX) $(CFLAGS) -std=c++11 -Wall -Wextra -pedantic -Iinclude -o $@ -x c++ tests/c/week.c -x none $(archive)

$(build)/stack: tests/c/stack.c $(header) $(archive)
	mkdir -p $(build)
	$(CC) $(CFLAGS) -std=gnu11 -Wall -Wextra -Iinclude -o $@ tests/c/stack.c $(archive)

clean-c:
	rm -rf $(build) target/tests-rust target/bench
