# make lib      the static library, target/staticlib/libscheme.a, proved and compiled by rt
# make programs the programs, below target/bin/, proved, compiled and run on their stored cases by rt
# make run      prove and build the library and the programs, and run the examples; the log is target/run.log
# make examples compile the C examples
# make test     the merge gate: every proof, every must-fail edit, every host test
# make vectors  make the stored test vectors and known answers again
# make bench    time the library beside portable C and, where it is installed, OpenSSL; measure its stack;
#               time linkcheck beside the library's bare calls
# make clean    remove all that was built

CC = gcc
CFLAGS = -std=c99 -O3 -Wall -Wextra -Wpedantic
CPPFLAGS = -Iinclude
RT = rt
# The archives run on every x86-64; rt's own default has instructions that older processors lack.
CPU = --cpu x86-64

LIB = target/staticlib/libscheme.a
# The ring's calls for the tests and the benchmark; no part of the library.
RING = target/staticlib/libring_calls.a
SOURCES := crates.txt $(shell find crates -name out -prune -o \( -name '*.rt' -o -name '*.antt' \) -print)
PROGRAMS = target/bin/linkcheck target/bin/shake_vectors target/bin/ring_vectors
EXAMPLES = $(patsubst examples/%.c,target/examples/%,$(wildcard examples/*.c))
BENCHES = target/bench/shake target/bench/ring target/bench/scheme target/bench/stack
BENCH_PARTS = bench/timing.c bench/timing.h bench/keccak_ref.c bench/keccak_ref.h \
	bench/ring_ref.c bench/ring_ref.h bench/ring_calls.h bench/kindi_ref.c bench/kindi_ref.h bench/sets.h \
	bench/stack_calls.h

# A short loop that crosses a cache line takes up to twice its time; so the C is not timed by chance.
BENCH_FLAGS = -falign-loops=64

# What the benchmark needs for OpenSSL, or nothing where a program that uses it cannot be linked.
OPENSSL_PROBE = printf '\#include <openssl/evp.h>\nint main(void) { return !EVP_shake128(); }\n' \
	| $(CC) -x c - -o target/bench/probe -lcrypto 2>/dev/null && echo -DBENCH_OPENSSL -lcrypto

.PHONY: lib programs run examples test vectors bench clean
.DELETE_ON_ERROR:

lib: $(LIB)

target/staticlib/lib%.a: $(SOURCES)
	cd crates/$* && $(RT) lib $(CPU)
	@mkdir -p $(@D)
	cp crates/$*/out/lib$*.a $@

programs: $(PROGRAMS)

target/bin/%: $(SOURCES)
	@mkdir -p $(@D)
	cd crates/$* && $(RT) run <stdin >../../$@.stdout
	cmp $@.stdout crates/$*/stdout
	cp crates/$*/out/$* $@

run:
	@examples/run.py

examples: $(EXAMPLES)

target/examples/%: examples/%.c $(wildcard examples/*.h) include/kindi.h $(LIB)
	@mkdir -p $(@D)
	$(CC) $(CFLAGS) $(CPPFLAGS) $< $(LIB) -o $@

test:
	.ci/run

vectors:
	tests/vectors/shake_cases.py
	tests/vectors/ring_cases.py
	tests/vectors/linkcheck_cases.py
	tests/vectors/kindi_cases.py

bench: $(BENCHES) target/bench/calls target/bin/linkcheck
	for program in $(BENCHES); do $$program || exit 1; done
	bench/linkcheck.py

target/bench/%: bench/%.c $(BENCH_PARTS) include/kindi.h $(LIB) $(RING)
	@mkdir -p $(@D)
	openssl=$$($(OPENSSL_PROBE)); \
	$(CC) $(CFLAGS) $(BENCH_FLAGS) $(CPPFLAGS) $< $(filter %.c,$(BENCH_PARTS)) $(LIB) $(RING) $$openssl -lm -o $@

clean:
	rm -rf target crates/*/out
