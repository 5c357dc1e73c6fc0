# make without a goal lists what there is to make: the lines of this file that begin with ##.

## make check    what has changed is proved, programs run and the comparison made briefly; no must-fail edit
## make test     the gate: every crate proved from nothing, every must-fail edit, comparison, boundary, benchmark, example, panels; then its times
## make times    the times of the last make test, part by part
## make lib      the archives of the exported crates, target/staticlib/lib*.a
## make panels   forty guests on one frame, their calls interleaved by SEED (1), each held to itself alone; target/panels.png
## make example  one guest in C and the floating-point environments, built as C99 and as C++ and run (examples/)
## make pictures docs/pictures written anew
## make rust-check         the tests of rust/ and the panels' own checks
## make signatures         names, order and types of the exported functions' parameters, in Rattle, C and Rust
## make differential-check the comparison with the Rust (differential/run --help)
## make boundary-valgrind  abuse at the C boundary under valgrind (CASES=20000)
## make bench-check        the benchmark held to its bars (bench/run --help)
## make record   the Rust's answers written anew to crates/replay_*
##
## With TILEFRINGE_LIB=FOLDER panels, example, pictures and rust-check take FOLDER/libtilefringe.a and prove nothing; so do the comparison
## and the benchmark, which want libprobes.a there too.

.PHONY: help check test times lib signatures differential-check boundary-valgrind bench-check record example panels pictures rust-check rust-build
.NOTPARALLEL:

help:
	@sed -n 's/^## \{0,1\}//p' Makefile

test:
	@tools/gate

times:
	@cat log/times 2> /dev/null || { echo "no make test has left its times here"; exit 1; }

# The crates that are exported for C and Rust to link. The comparison uses both archives, everything else libtilefringe.a alone.
EXPORTED = probes tilefringe

ifneq ($(TILEFRINGE_LIB),)
override TILEFRINGE_LIB := $(abspath $(TILEFRINGE_LIB))
export TILEFRINGE_LIB
endif
ARCHIVE := $(or $(TILEFRINGE_LIB),target/staticlib)/libtilefringe.a

lib: $(EXPORTED:%=target/staticlib/lib%.a)
	@:

target/staticlib/lib%.a: $(shell find crates -name out -prune -o \( -name '*.rt' -o -name '*.antt' \) -print) crates.txt
	@tools/proofs $*

ifneq ($(TILEFRINGE_LIB),)
$(TILEFRINGE_LIB)/lib%.a:
	@echo "there is no lib$*.a in the folder that TILEFRINGE_LIB names, $(TILEFRINGE_LIB)" >&2; exit 1
endif

signatures:
	@tools/signatures

# The counters are in log/check.
check: signatures
	@tools/proofs
	@$(MAKE) --no-print-directory lib
	@s=0; TILEFRINGE_LIB= differential/run --cases 2000 > log/check || s=$$?; grep -v '^  ' log/check; [ $$s = 0 ] || [ $$s = 3 ]

# Exit status 3 of a run: the Rust's source is not at hand, which is a failure only where CI=true.
differential-check:
	@differential/run || { s=$$?; [ $$s = 3 ] && [ "$${CI:-}" != true ]; }

# Exit status 3: valgrind is not at hand either, or cannot be installed.
boundary-valgrind:
	@differential/valgrind $(CASES) || { s=$$?; [ $$s = 3 ] && [ "$${CI:-}" != true ]; }

# Exit status 4: a line misses its bar. It is measured anew, by itself, in another process, six in all: where a process has its memory decides a copy's speed.
bench-check:
	@mkdir -p log; missed=; for turn in 1 2 3 4 5 6; do \
		s=0; bench/run --check $$missed > log/bench || s=$$?; cat log/bench; \
		missed=$$(sed -n 's/^BENCH FAILED \([a-z0-9_]*\):.*/\1/p' log/bench); \
		[ $$s = 4 ] || break; \
	done; [ $$s = 0 ] || { [ $$s = 3 ] && [ "$${CI:-}" != true ]; }

record: lib
	@differential/run --record

# The header is for C99 and for C++: each example is built as both. The guest linked with -ffast-math must notice FTZ and DAZ, 6, and end.
WARNINGS = -Wall -Wextra -Werror -pedantic
IN_C = gcc $(WARNINGS) -std=c99 -Iinclude
IN_CPP = g++ $(WARNINGS) -std=c++11 -Iinclude -x c++

example: $(ARCHIVE)
	@mkdir -p target/example
	@for name in panel environment; do \
		$(IN_C) examples/$$name.c $(ARCHIVE) -o target/example/$$name && \
		$(IN_CPP) examples/$$name.c -x none $(ARCHIVE) -o target/example/$${name}_cpp || exit 1; \
	done
	@target/example/panel > target/example/panel.out; s=$$?; cat target/example/panel.out; [ $$s = 0 ]
	@target/example/panel_cpp > target/example/panel_cpp.out
	@for built in panel panel_cpp; do diff examples/panel.out target/example/$$built.out || exit 1; done; echo "example: as examples/panel.out, built as C and as C++"
	@target/example/environment
	@target/example/environment_cpp > target/example/environment_cpp.out || { cat target/example/environment_cpp.out; exit 1; }
	@$(IN_C) -ffast-math examples/panel.c $(ARCHIVE) -o target/example/panel_fast
	@! target/example/panel_fast > target/example/panel_fast.out
	@echo "floating-point environment: 6" | diff - target/example/panel_fast.out && echo "example: linked with -ffast-math, it ends"

CARGO = CARGO_HOME="$(CURDIR)/target/cargo-home" CARGO_TARGET_DIR="$(CURDIR)/target/cargo" cargo
PANELS = target/cargo/release/panels

rust-build: $(ARCHIVE)
	@mkdir -p target/cargo-home
	@cd rust && $(CARGO) build --release --offline --locked --quiet

panels: rust-build
	@$(PANELS) --seed $(or $(SEED),1) --png target/panels.png

pictures: rust-build
	@mkdir -p docs/pictures
	@$(PANELS) --png docs/pictures/frame.png > /dev/null
	@$(PANELS) --alone 0 --scale 4 --png docs/pictures/pump.png > /dev/null
	@$(PANELS) --alone 1 --scale 4 --png docs/pictures/kiln.png > /dev/null
	@$(PANELS) --alone 15 --scale 4 --png docs/pictures/tank.png > /dev/null
	@$(PANELS) --alone 24 --scale 4 --png docs/pictures/flare.png > /dev/null

rust-check: rust-build
	@cd rust && $(CARGO) test --release --offline --locked --quiet
	@rust/check
