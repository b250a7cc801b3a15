# make test     the one test command: its last line is 'N passed, 0 failed', printed only where everything passed
# make run      the program on a sample, or on a file: make run FASTA=path
# make lib      the archive, the C header, a pkg-config file and a CMake package, under target/tsivelaro
# make install  the same below a prefix: make install PREFIX=/usr/local DESTDIR=stage
# make oracle   ours against the original, over a million comparisons
# make bench    ours against the original, timed; and the program against another FASTA reader
# make fuzz     random calls of the C face: make fuzz CALLS=100000000 SEED=7
# make interop  .2bit files exchanged with other programs, which it installs where they are missing

FASTA = samples/reads.fa
SOURCES := $(shell find crates -name out -prune -o \( -name '*.rt' -o -name '*.antt' \) -print)
LIB = target/tsivelaro/lib/libtsivelaro.a

.PHONY: test run lib install oracle bench fuzz interop

test:
	@tools/test

run: target/bin/screen
	@tools/run target/bin/screen <"$(FASTA)"

target/bin/screen: crates.txt $(SOURCES)
	@mkdir -p target
	@tools/watch target/screen.log tools/program screen

lib: $(LIB)

$(LIB): crates.txt include/tsivelaro.h tools/lib $(SOURCES)
	@tools/lib

install: $(LIB)
	@PREFIX="$(PREFIX)" DESTDIR="$(DESTDIR)" tools/install

oracle: $(LIB)
	@oracle/compare/run

bench: $(LIB) target/bin/screen
	@bench/run

fuzz:
	@tests/run-fuzz

interop: $(LIB)
	@tests/interop/run
