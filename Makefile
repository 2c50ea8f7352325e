# make            prove every crate; build the library, the programs and the command
# make test       the gate: every proof, every must-fail edit, every test
# make install    put command, libraries, header, pkg-config file and Python package below PREFIX
# make clean      remove what these made
PREFIX ?= /usr/local
DESTDIR ?=
WHERE := $(patsubst ~/%,$(HOME)/%,$(PREFIX))
TO := $(DESTDIR)$(WHERE)
CC ?= cc
VERSION := $(shell sed -n 's/^version = "\(.*\)"/\1/p' rust/planner/Cargo.toml)
# What the library and the programs are made from, and not what a check leaves.
SOURCES := crates.txt $(shell find crates -type f -not -path '*/out/*')
# How many crates are proved at a time: one for each processor, with 4 GB of memory.
JOBS ?= $(shell awk -v most="$$(nproc)" '/^MemAvailable/ { n = int($$2 / 4000000); print n < 1 ? 1 : n < most ? n : most }' /proc/meminfo)
SHELL := /bin/bash
.SHELLFLAGS := -o pipefail -c
.DELETE_ON_ERROR:
.PHONY: all test install clean

all: build/libplanner.a build/libplanner.so build/planner.pc target/bin/hunt target/bin/rulings
	@echo "ready: ./planner, target/bin/hunt, target/bin/rulings, build/libplanner.a, build/libplanner.so"

# The prover's notes go to the log; of each crate one line is shown.
build/proved: $(SOURCES)
	@command -v rt > /dev/null || { echo "make: rt, the Rattle toolchain, is not on the PATH" >&2; exit 1; }
	@mkdir -p build
	@echo "proving every crate, $(JOBS) at a time (notes in build/prove.log)"
	@rt all check --jobs $(JOBS) 2>&1 | tee build/prove.log \
	    | awk '/^== / { if (crate) print crate ": " verdict; crate = $$2; verdict = "as it was proved before"; fflush() } /^logic=/ { verdict = $$1 }' \
	    || { tail -n 20 build/prove.log; exit 1; }
	@touch $@

# Over what that check kept.
build/libplanner.a: build/proved
	@(cd crates/ffi && rt lib) > build/library.log 2>&1 || { tail -n 20 build/library.log; exit 1; }
	@cp crates/ffi/out/libffi.a $@

# A program is built as it is run; it runs once here, on its own example.
target/bin/%: build/proved
	@mkdir -p target/bin
	@(cd crates/$* && rt run < stdin) 2> build/$*.log | cmp - crates/$*/stdout || { tail -n 20 build/$*.log; exit 1; }
	@install -m 755 crates/$*/out/$* $@

build/libplanner.so: build/libplanner.a
	@$(CC) -shared -Wl,-soname,libplanner.so -Wl,--whole-archive $< -Wl,--no-whole-archive -o $@

# Quoted and with the way to the shared library in it, so that a program links and runs wherever the prefix is.
build/planner.pc: Makefile rust/planner/Cargo.toml
	@mkdir -p build
	@printf '%s\n' "prefix=$$(realpath -ms '$(WHERE)')" 'Name: planner' \
	    'Description: the cheapest closed tour of 3 to 20 vertices, proved' 'Version: $(VERSION)' 'Cflags: -I"$${prefix}/include"' \
	    'Libs: -L"$${prefix}/lib" -Wl,-rpath,"$${prefix}/lib" -lplanner' > $@

test:
	@bash .ci/run

install: all
	@rm -f build/planner.pc && $(MAKE) --no-print-directory build/planner.pc
	@install -d "$(TO)/bin" "$(TO)/include" "$(TO)/lib/pkgconfig" "$(TO)/lib/python/planner/formats"
	@install -m 755 planner target/bin/hunt target/bin/rulings "$(TO)/bin"
	@install -m 644 include/planner.h "$(TO)/include"
	@install -m 644 build/libplanner.a build/libplanner.so "$(TO)/lib"
	@install -m 644 build/planner.pc "$(TO)/lib/pkgconfig"
	@install -m 644 python/planner/*.py "$(TO)/lib/python/planner"
	@install -m 644 python/planner/formats/*.py "$(TO)/lib/python/planner/formats"
	@echo "installed below $(TO)"

clean:
	@rm -rf build target crates/*/out tests/target bench/target rust/planner/target examples/rust/target
