# make help          what can be made; make alone says it too
# make run           prove and build trackline and run it on a hire block: make run BLOCK=examples/sample.blk
# make test          every test, and last the proofs (rt ci): the last line is 'N passed, 0 failed'
# make beside        the tests without the gate
# make proofs        the gate (rt ci): what has not passed on this machine is proved from nothing; PROVER_TMP=folder, here and for all that is proved, for the prover's files
# make bench         the technician's cases and the published lines: what each gave and what it should be
# make speed         the proved library beside plain Rust that is written for speed, on the same blocks and lines, and a day over its number of blocks
# make instructions  the instructions of both, part by part, with valgrind
# make turns         six kinds of block in another build of the library and in this one, in turns: make turns OTHER=folder/libtrackline.so.1
# make fuzz          a bounded fuzz run over the C boundary, with clang: make fuzz SECONDS=120
# make program       trackline, proved: target/bin/trackline
# make programs      trackline and bench, proved: target/bin
# make cggtts        the program for hire blocks, lines and line files: target/cggtts/cggtts
# make archive       the static library, proved: target/staticlib/libboundary.a
# make shared        the shared library: target/libtrackline.so.1
# make install       the programs, the libraries, the header, the manual pages: make install PREFIX=/usr/local DESTDIR=
# make uninstall     remove what install put there, with the same PREFIX and DESTDIR; folders stay
# make clean         remove target/ and crates/*/out, which hold everything that was built
VERSION := 1.11.0
BLOCK ?= examples/sample.blk
PREFIX ?= /usr/local
SECONDS ?= 120
CASES ?= crates/bench/stdin
CC ?= cc
CFLAGS ?= -O2

# The archive of crate boundary, which has every C function; it is installed as libtrackline.a.
ARCHIVE := target/staticlib/libboundary.a
SONAME := libtrackline.so.$(firstword $(subst ., ,$(VERSION)))
SHARED := target/$(SONAME)
CGGTTS := target/cggtts/cggtts
CGGTTS_SOURCES := $(wildcard cggtts/*.c)
STRICT := -std=c11 -Wall -Wextra -Werror -pedantic
export CARGO_TARGET_DIR := $(CURDIR)/target/cargo
export LINE_ARCHIVE := $(CURDIR)/$(ARCHIVE)
CARGO := cargo --offline
# The folder of the prover's small files, in memory where they can be there: a disk takes longer to make and remove them than a small crate takes to prove.
PROVER_TMP ?= $(shell tests/memory.sh)
IN_MEMORY = $(if $(PROVER_TMP),TMPDIR="$$(cd "$(PROVER_TMP)" && pwd)" )
RT = $(IN_MEMORY)rt
# The same with a line for each crate that is proved, and the rest in a log.
PROVE = $(IN_MEMORY)tools/prove
INSTALLED := $(DESTDIR)$(abspath $(PREFIX))
# What the archive is made of: every crate but the programs. What rt keeps in out/ is no source.
SOURCES := crates.txt $(shell find crates \( -name must-fail -o -name out \) -prune -o -path crates/trackline -prune -o -path crates/bench -prune -o -type f -print)

PROGRAM := target/bin/trackline
PROGRAM_SOURCES := $(shell find crates \( -name must-fail -o -name out \) -prune -o -path 'crates/trackline/*' -type f -print)
BENCH := target/bin/bench
BENCH_SOURCES := $(shell find crates \( -name must-fail -o -name out \) -prune -o -path 'crates/bench/*' -type f -print)

# What install puts below the prefix, and uninstall removes.
PROGRAMS := $(PROGRAM) $(CGGTTS) tools/hireblock
PAGES := $(wildcard man/*.[1-8])
DOCUMENTS := docs/REFUSALS.md docs/HIRE-BLOCK.md docs/COMMON-VIEW.md docs/common-view.svg docs/SHARED-OFFSET.md docs/LAST-DIGIT.md docs/last-digit.svg docs/DELAYS.md docs/VERSION-01.md docs/TRUST.md
EXAMPLES := examples/receiver.c examples/delays.c examples/day.c examples/sample.txt examples/sample.blk examples/short.txt examples/short.blk examples/worked.txt examples/worked.blk examples/changed.txt examples/changed.blk examples/first.cggtts examples/second.cggtts examples/week.cggtts examples/roof-a.cggtts examples/roof-b.cggtts examples/delays.txt examples/delays.store examples/dated.txt examples/oneday.txt examples/oneday.blk examples/oneday.cggtts examples/gps.cggtts examples/gps.v01 examples/published.v01
TWO_TRACKS := $(wildcard examples/shared/*)
# What follows a track to its last digit; beside the examples, of which it takes the worked track where none is named.
FOLLOWER := tools/lastdigit tools/prose.py tools/lastdigit_prose.py tools/lastdigit_picture.py
INSTALLS := $(addprefix bin/,$(notdir $(PROGRAMS))) include/trackline.h lib/libtrackline.a lib/$(SONAME) \
	lib/libtrackline.so lib/pkgconfig/trackline.pc \
	$(foreach page,$(PAGES),share/man/man$(subst .,,$(suffix $(page)))/$(notdir $(page))) \
	$(addprefix share/doc/trackline/,$(notdir $(DOCUMENTS))) $(addprefix share/trackline/examples/,$(notdir $(EXAMPLES))) \
	$(addprefix share/trackline/examples/shared/,$(notdir $(TWO_TRACKS))) $(addprefix share/trackline/tools/,$(notdir $(FOLLOWER)))

.PHONY: help run test beside proofs bench speed instructions turns fuzz program programs cggtts archive shared install uninstall clean
# Crates are proved one after the other: rt works in one crate at a time. Only the two rows of tests are run at once.
ifndef ROWS
.NOTPARALLEL:
endif
.PHONY: one-prefix side-by-side compared described rt-there

help:
	@sed -n 's/^# make /make /p' Makefile

rt-there:
	@tools/prove --there

# The line alone goes to standard output.
run:
	@test -r "$(BLOCK)" || { echo "make run: cannot read the block '$(BLOCK)'" >&2; exit 1; }
	@$(MAKE) --no-print-directory program >&2
	@tools/run target/bin/trackline "$(BLOCK)"

program: $(PROGRAM)

$(PROGRAM): $(SOURCES) $(PROGRAM_SOURCES)
	@mkdir -p target
	@echo "proving and building trackline; from nothing this takes some minutes (target/trackline.log)"
	@$(PROVE) target/trackline.log program trackline

$(BENCH): $(SOURCES) $(BENCH_SOURCES)
	@mkdir -p target
	@echo "proving and building bench; from nothing this takes some minutes (target/bench.log)"
	@$(PROVE) target/bench.log program bench

# What the proofs do not cover comes first, so that the proofs' own line is the last.
test: beside proofs

# rt ci also refuses a file that is not laid out as rt fmt does.
proofs: rt-there
	$(IN_MEMORY)tools/gate

# What the tests are of is proved at once, and not for the archive and then for the programs.
side-by-side: rt-there
	@mkdir -p target
	@echo "proving every crate; from nothing this takes some minutes (target/crates.log)"
	@$(RT) all check --jobs 2 > target/crates.log 2>&1 || { cat target/crates.log >&2; exit 1; }

beside: side-by-side archive programs cggtts shared
	$(MAKE) --no-print-directory -j2 --output-sync=target ROWS=2 compared described

# What is compared with the independent implementation, and what C programs, cggtts and hireblock do. It takes as long as the rest beside it.
compared:
	$(CARGO) test --manifest-path tests/reference/Cargo.toml
	$(CARGO) run --release --manifest-path tests/boundary/Cargo.toml
	$(CC) $(CFLAGS) $(STRICT) -Iinclude tests/c/boundary_test.c $(ARCHIVE) -o target/boundary_test
	target/boundary_test
	$(CC) $(CFLAGS) $(STRICT) -Iinclude tests/c/files_test.c $(ARCHIVE) -o target/files_test
	target/files_test
	$(CC) $(CFLAGS) $(STRICT) -Iinclude tests/c/view_test.c $(ARCHIVE) -o target/view_test
	target/view_test
	$(CC) $(CFLAGS) $(STRICT) -Iinclude tests/c/path_test.c $(ARCHIVE) -o target/path_test
	target/path_test
	$(CC) $(CFLAGS) $(STRICT) -Iinclude tests/c/version01_test.c $(ARCHIVE) -o target/version01_test
	target/version01_test
	$(CC) $(CFLAGS) $(STRICT) -Iinclude tests/c/limits_test.c $(ARCHIVE) -o target/limits_test
	target/limits_test
	$(CC) $(CFLAGS) $(STRICT) -Iinclude tests/c/delays_test.c $(ARCHIVE) -o target/delays_test
	target/delays_test
	$(CC) $(CFLAGS) $(STRICT) -Iinclude examples/delays.c $(ARCHIVE) -o target/delays_example
	python3 tests/c/delays_example.py target/delays_example
	$(CC) $(CFLAGS) $(STRICT) -Iinclude tests/c/day_test.c $(ARCHIVE) -o target/day_test
	target/day_test
	$(CC) $(CFLAGS) $(STRICT) -Iinclude examples/day.c $(ARCHIVE) -pthread -o target/day_example
	python3 tests/c/day_example.py target/day_example
	$(CC) $(CFLAGS) $(STRICT) -Iinclude examples/receiver.c $(ARCHIVE) -o target/receiver
	target/receiver | cmp - crates/trackline/stdout
	python3 tests/c/receiver.py target/receiver
	$(CC) $(CFLAGS) $(STRICT) -Iinclude tests/c/stack.c $(ARCHIVE) -pthread -Wl,-z,now -o target/stack
	python3 tests/c/stack.py target/stack
	python3 tests/layout.py
	python3 tests/trackline/test_trackline.py
	python3 tests/bench/test_bench.py
	python3 tests/cggtts/test_cggtts.py
	python3 tests/cggtts/test_merge.py
	python3 tests/cggtts/test_view.py
	python3 tests/cggtts/test_parted.py
	python3 tests/cggtts/test_convert.py
	python3 tests/cggtts/test_files.py
	python3 tests/cggtts/test_offset.py
	python3 tests/cggtts/test_path.py
	python3 tests/cggtts/test_version01.py
	python3 tests/cggtts/test_words.py
	python3 tests/cggtts/test_delays.py
	python3 tests/cggtts/test_day.py
	python3 tests/hireblock/test_hireblock.py

# What the tools, the examples and the documents say, and what is installed.
described:
	tests/make.sh
	python3 tests/lastdigit/test_lastdigit.py
	python3 tests/refusals/test_refusals.py
	python3 tests/refusals/test_retired.py
	python3 tests/clauses/test_clauses.py
	python3 tests/edits/test_edits.py
	python3 tests/daycost/test_daycost.py
	python3 tests/evidence/test_evidence.py
	tools/edits
	python3 tests/published/expected.py --check
	python3 tests/boundary/mutants.py --applies
	tools/hireblock pack examples/sample.txt | cmp - examples/sample.blk
	tools/worked | cmp - examples/worked.txt
	tools/hireblock pack examples/worked.txt | cmp - examples/worked.blk
	tools/worked --short | cmp - examples/short.txt
	tools/hireblock pack examples/short.txt | cmp - examples/short.blk
	tools/worked --changed | cmp - examples/changed.txt
	tools/hireblock pack examples/changed.txt | cmp - examples/changed.blk
	tools/week first | cmp - examples/first.cggtts
	tools/week second | cmp - examples/second.cggtts
	tools/week both | cmp - examples/week.cggtts
	tools/week gps | cmp - examples/gps.cggtts
	tools/week old | cmp - examples/gps.v01
	tools/week published | cmp - examples/published.v01
	tools/roof a | cmp - examples/roof-a.cggtts
	tools/roof b | cmp - examples/roof-b.cggtts
	tools/roof program $(CGGTTS)
	tools/roof check docs/COMMON-VIEW.md
	tools/calibrations text | cmp - examples/delays.txt
	tools/calibrations store | cmp - examples/delays.store
	tools/calibrations dated | cmp - examples/dated.txt
	tools/hireblock pack examples/dated.txt --delays examples/delays.store 2> target/dated.log | cmp - examples/worked.blk
	rm -f target/delays.store && $(CGGTTS) store examples/delays.txt -o target/delays.store && cmp target/delays.store examples/delays.store
	tools/day text | cmp - examples/oneday.txt
	tools/day blocks | cmp - examples/oneday.blk
	tools/hireblock pack examples/oneday.txt | cmp - examples/oneday.blk
	tools/day lines | cmp - examples/oneday.cggtts
	$(CGGTTS) day examples/oneday.blk -o target/oneday.cggtts && cmp target/oneday.cggtts examples/oneday.cggtts
	rm -rf target/two-tracks && tools/offset write target/two-tracks && diff -r target/two-tracks examples/shared
	tools/offset check docs/SHARED-OFFSET.md
	tools/lastdigit --check docs/LAST-DIGIT.md
	tools/lastdigit --program target/bin/trackline
	tools/lastdigit examples/short.blk --program target/bin/trackline
	tools/lastdigit examples/changed.blk --program target/bin/trackline
	tools/lastdigit --svg target/last-digit.svg && cmp target/last-digit.svg docs/last-digit.svg
	tools/definitions --check docs/TRUST.md
	tools/evidence --check
	tools/architecture --check docs/ARCHITECTURE.md
	tools/architecture --svg target/architecture.svg && cmp target/architecture.svg docs/architecture.svg
	tools/daycost --check docs/SPEED.md
	tools/clauses docs/CLAUSES.md
	tests/install.sh

bench: rt-there $(BENCH)
	@tests/bench.sh target/bin/bench "$(CASES)"

programs: rt-there $(PROGRAM) $(BENCH)

archive: $(ARCHIVE)

$(ARCHIVE): $(SOURCES)
	@mkdir -p target
	@echo "proving and building the library; from nothing this takes some minutes (target/archive.log)"
	@rm -rf $(@D)
	@$(PROVE) target/archive.log archive boundary

shared: $(SHARED)

$(SHARED): $(ARCHIVE) install/trackline.map
	@$(CC) -shared -Wl,-soname,$(SONAME) -Wl,--version-script=install/trackline.map -Wl,-z,defs -Wl,-z,now \
		-Wl,--whole-archive $(ARCHIVE) -Wl,--no-whole-archive -o $@

cggtts: $(CGGTTS)

$(CGGTTS): $(CGGTTS_SOURCES) cggtts/cggtts.h include/trackline.h Makefile $(ARCHIVE)
	@mkdir -p $(@D)
	@$(CC) $(CFLAGS) $(STRICT) -DVERSION='"$(VERSION)"' -Iinclude $(CGGTTS_SOURCES) $(ARCHIVE) -lm -o $@

# make's own lists of files are parted by blanks, so a prefix can't have one.
one-prefix:
	@test $(words $(PREFIX)) = 1 || { echo "make: PREFIX is '$(PREFIX)', and has to be one folder without blanks" >&2; exit 1; }

# What is built already is installed without rt.
install: one-prefix $(PROGRAM) $(ARCHIVE) $(SHARED) $(CGGTTS)
	@mkdir -p "$(INSTALLED)" && cd "$(INSTALLED)" && install -d $(sort $(dir $(INSTALLS)))
	@install $(PROGRAMS) "$(INSTALLED)/bin"
	@install -m 644 include/trackline.h "$(INSTALLED)/include"
	@install -m 644 $(ARCHIVE) "$(INSTALLED)/lib/libtrackline.a"
	@install $(SHARED) "$(INSTALLED)/lib"
	@ln -sf $(SONAME) "$(INSTALLED)/lib/libtrackline.so"
	@sed -e 's|@PREFIX@|$(abspath $(PREFIX))|' -e 's|@VERSION@|$(VERSION)|' install/trackline.pc.in > target/trackline.pc
	@install -m 644 target/trackline.pc "$(INSTALLED)/lib/pkgconfig"
	@for page in $(PAGES); do install -m 644 $$page "$(INSTALLED)/share/man/man$${page##*.}" || exit 1; done
	@install -m 644 $(DOCUMENTS) "$(INSTALLED)/share/doc/trackline"
	@install -m 644 $(EXAMPLES) "$(INSTALLED)/share/trackline/examples"
	@install -m 644 $(TWO_TRACKS) "$(INSTALLED)/share/trackline/examples/shared"
	@install $(FOLLOWER) "$(INSTALLED)/share/trackline/tools"
	@echo "installed below $(INSTALLED): $(words $(INSTALLS)) files"

uninstall: one-prefix
	test ! -d "$(INSTALLED)" || { cd "$(INSTALLED)" && rm -f $(INSTALLS); }

clean:
	rm -rf target crates/*/out

speed: archive
	$(CARGO) run --release --manifest-path tests/speed/Cargo.toml
	$(CARGO) run --release --manifest-path tests/speed/Cargo.toml -- days

instructions: archive
	tests/speed/instructions.sh

turns: shared
	@test -n "$(OTHER)" || { echo "make turns: OTHER is not given: make turns OTHER=folder/libtrackline.so.1" >&2; exit 1; }
	@test -r "$(OTHER)" || { echo "make turns: cannot read the other library '$(OTHER)'" >&2; exit 1; }
	$(CC) $(CFLAGS) $(STRICT) tests/speed/turns.c -ldl -o target/turns
	@target/turns examples/worked.blk "$$(realpath "$(OTHER)")" "$(CURDIR)/$(SHARED)"

fuzz: archive
	tests/fuzz/run.sh $(SECONDS)
