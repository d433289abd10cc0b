# make                  lists this
# make run              factors a sample record: shows the matrix, R and Q, checks them, and shows weights and half of the page
# make test             the gate: all that is proved and checked, ends in a line `N passed, 0 failed`
# make build/libhubqr.a the archive for C and Rust
# make build/qr         the program that factors a matrix record
# make build/page       the program that prints R of a result record
# make prove            every crate and its layout, every wrong program, each program run: rt ci
# make check-docs       each promise is pinned, and the documents cite what is there
# make check-format     the layout of the Rust side, and what clippy says of it
# make check-tools      the tools of the gate notice what they should
# make check-edits      each file of wrong programs was refused, and not for a reason that shows nothing; after prove
# make try-edits        each wrong program was refused by itself: CRATES=".." says of which crates; a check for each file of them
# make check-face       header, archive, host/rust and the exports in crates/ agree
# make check-archive    the archive is the same when it is made again, and fuses no operations on floats
# make check-c          the tests in C and C++, by gcc, clang and under valgrind
# make check-rust       the tests in Rust, the comparison with the independent implementation among them
# make check-examples   the examples, and what `make run` shows
# make demands          writes docs/DEMANDS.md and docs/PINS.md from docs/demands.txt and the tree
# make bench            times the engine against other implementations
# make figures          draws the measured errors
# make clean            removes what was made
SHELL := /bin/sh
CC ?= cc
CXX ?= c++
CFLAGS := -std=c11 -Wall -Wextra -Werror -pedantic -Iinclude
CARGO := cargo --quiet
SOURCES := crates.txt $(shell find crates -path 'crates/*/out' -prune -o -type f -print)
TOOLS := build/cargo/release
EXAMPLES := $(TOOLS)/instalments $(TOOLS)/snapshots $(TOOLS)/weights $(TOOLS)/verify $(TOOLS)/log $(TOOLS)/desk
CRATES := $(sort $(foreach folder,$(wildcard crates/*/must-fail),$(notdir $(patsubst %/,%,$(dir $(folder))))))

# The targets share build/ and the order of `test` is meant, so one is made after the other; rt and cargo use every core themselves.
.NOTPARALLEL:
.PHONY: help run test prove try-edits demands bench figures clean
.PHONY: check-docs check-format check-tools check-edits check-face check-archive check-c check-rust check-examples

help:
	@sed -n 's/^# \(make .*\)/\1/p' Makefile

# What a machine needs before something is made, said in a sentence where it is missing. Behind '|', since it makes nothing out of date.
need-%: FORCE
	@CC='$(CC)' CXX='$(CXX)' sh tools/need.sh $*

prove try-edits build/libhubqr.a build/qr build/page check-tools: | need-platform need-rt
check-docs check-tools check-format check-rust demands bench figures $(TOOLS)/record $(EXAMPLES): | need-cargo
check-format: | need-rustfmt need-clippy
check-tools check-c check-examples bench: | need-cc need-gcc
check-tools check-c: | need-c++

# cargo is asked for ahead of the proofs, which take a while.
run: need-cargo $(TOOLS)/record build/qr build/page
	@sh examples/run.sh build/qr build/page $(TOOLS)/record build/result.bin

# The proofs come first, of the checkout as it is, and once; what is tested after them is built from what they left. Nothing is removed ahead:
# rt trusts nothing in crates/*/out, `prove` makes the archive and the programs anew whatever stands in build/, cargo goes by its own account of what
# it built from what, and the C programs are compiled each time. The last line is the proofs' verdict again, N passed, 0 failed: it is printed only
# when nothing before it failed, and when docs/PINS.md has the same one. That page lists every crate, and counts the edit files of each, so that none
# goes unseen.
test: need-cargo prove check-docs check-format check-tools check-edits check-face check-archive check-c check-rust check-examples
	@verdict="$$(grep '^[0-9]* passed, 0 failed$$' build/ci.log)" || exit 1; \
	if ! grep -qF "last line is \`$$verdict\`" docs/PINS.md; then \
	    echo "build/ci.log ends with \"$$verdict\", and docs/PINS.md names another last line: rt ci left a crate or an edit out, or took one more" >&2; \
	    exit 1; \
	fi; \
	echo "$$verdict"

# rt ci takes what it proved of the same files before, on this machine, and proves the rest from nothing. Then the archive and the programs are made.
prove:
	sh tools/prove.sh

# Only proved code is built: where rt ci has passed these very files it is there in seconds, else rt proves them first.
build/libhubqr.a build/qr build/page: $(SOURCES)
	@sh tools/build.sh $(@F)

# Its verdicts are those of the archive.
$(TOOLS)/record: build/libhubqr.a FORCE
	@$(CARGO) build --release -p record

$(EXAMPLES): build/libhubqr.a FORCE
	$(CARGO) build --release -p instalments --bin $(@F)

# docs/DEMANDS.md and docs/PINS.md are what docs/demands.txt and the tree give, each promise is pinned, and what the documents cite is there.
check-docs:
	$(CARGO) run --release -p demands -- --check

demands:
	$(CARGO) run --release -p demands

# clippy needs no archive, so that this comes before the proofs.
check-format:
	cargo fmt --all --check
	cargo clippy --quiet --release --workspace --all-targets -- -D warnings

check-tools:
	sh tools/test-prove.sh
	sh tools/test-check-edits.sh
	sh tools/test-try-edits.sh
	sh tools/test-need.sh
	sh tools/test-make.sh

check-edits:
	sh tools/check-edits.sh

# Seconds to a minute for each file, and rt ci has tried them all: it is for whoever writes an edit, and no part of `test`.
try-edits:
	sh tools/try-edits.sh $(CRATES)
	sh tools/check-edits.sh each $(CRATES)

# Header, archive, host/rust and the exports in crates/ declare the same face.
check-face: build/libhubqr.a
	sh tools/check-face.sh

check-archive: build/libhubqr.a
	sh tools/check-archive.sh

# The header and the archive agree, from C and from C++. Wrong programs do not compile.
check-c: build/libhubqr.a
	sh host/c/compile.sh
	CC='$(CC)' CXX='$(CXX)' sh host/c/test.sh

check-rust: build/libhubqr.a build/qr build/page
	$(CARGO) test --release --workspace -- --nocapture
	sh host/rust/test-project.sh
	$(CARGO) run --release -p figures -- build
	cmp build/errors.svg docs/figures/errors.svg

check-examples: build/libhubqr.a build/qr build/page $(EXAMPLES) $(TOOLS)/record
	$(CC) $(CFLAGS) -O2 examples/instalments.c build/libhubqr.a -o build/instalments
	$(CC) $(CFLAGS) -O2 examples/snapshots.c build/libhubqr.a -o build/snapshots
	$(CC) $(CFLAGS) -O2 examples/weights.c build/libhubqr.a -o build/weights
	$(CC) $(CFLAGS) -O2 examples/verify.c build/libhubqr.a -o build/verify
	$(CC) $(CFLAGS) -O2 examples/log.c build/libhubqr.a -o build/log
	$(CC) $(CFLAGS) -O2 examples/desk.c build/libhubqr.a -o build/desk
	sh examples/compare.sh build/instalments $(TOOLS)/instalments
	sh examples/test-snapshots.sh build/snapshots $(TOOLS)/snapshots build/qr $(TOOLS)/record
	sh examples/test-weights.sh build/weights $(TOOLS)/weights build/qr $(TOOLS)/record
	sh examples/test-verify.sh build/verify $(TOOLS)/verify build/qr $(TOOLS)/record
	sh examples/test-log.sh build/log $(TOOLS)/log build/qr $(TOOLS)/record
	sh examples/test-desk.sh build/desk $(TOOLS)/desk
	sh examples/test-run.sh build/qr build/page $(TOOLS)/record

bench: build/libhubqr.a
	$(CARGO) run --release -p bench

figures: build/libhubqr.a
	$(CARGO) run --release -p figures -- docs/figures

clean:
	rm -rf build crates/*/out

FORCE:
