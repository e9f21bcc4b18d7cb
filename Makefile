# Commands of the repository. `make test` is the gate; `make run` shows the product's main job.
.PHONY: test edits run programs library build install uninstall cases fuzz bench mutants pictures fmt

VERSION = 0.12.0

# The programs that are installed, each with a page man/NAME.1.
PROGRAMS = listing makercard mkcard windows

# Where `make install` puts things; DESTDIR goes before each of them.
PREFIX ?= /usr/local
BINDIR ?= $(PREFIX)/bin
LIBDIR ?= $(PREFIX)/lib
INCLUDEDIR ?= $(PREFIX)/include
PKGCONFIGDIR ?= $(LIBDIR)/pkgconfig
MANDIR ?= $(PREFIX)/share/man

test:
	@sh tests/run

# The must-fail edits alone, over what `rt check` kept, for the day's work: the verdict is the gate's. CRATES names some crates, as 'card plan';
# else all are tried.
CRATES =
edits:
	@sh tests/tools rt
	@rt must-fail $(CRATES)

# All that a product is made of; a product is made again where one of these has changed.
SOURCES := crates.txt $(shell find crates \( -name must-fail -o -path 'crates/*/out' \) -prune -o -type f -print)

# The listing of the bench film: reads its card from standard input.
run: target/bin/listing
	@target/bin/listing <crates/listing/stdin

# target/bin/NAME of each installed program, proved and tried
programs: $(PROGRAMS:%=target/bin/%)

target/bin/%: $(SOURCES)
	@sh tests/tools rt
	@sh tests/progress 'the program $*' target/$*.log sh tests/program $*

# target/staticlib/libfilmdisk.a, proved
library: target/staticlib/libfilmdisk.a

target/staticlib/libfilmdisk.a: $(SOURCES)
	@sh tests/tools rt
	@sh tests/progress 'the library' target/library.log sh tests/library

build: programs library

# Installs what `make build` made; it needs neither rt nor a compiler.
install:
	@for made in $(PROGRAMS:%=target/bin/%) target/staticlib/libfilmdisk.a; do \
	    [ -f $$made ] || { echo "no $$made: run 'make build' first"; exit 1; }; done
	install -d '$(DESTDIR)$(BINDIR)' '$(DESTDIR)$(LIBDIR)' '$(DESTDIR)$(INCLUDEDIR)' \
	    '$(DESTDIR)$(PKGCONFIGDIR)' '$(DESTDIR)$(MANDIR)/man1' '$(DESTDIR)$(MANDIR)/man3'
	install -m 755 $(PROGRAMS:%=target/bin/%) '$(DESTDIR)$(BINDIR)'
	install -m 644 target/staticlib/libfilmdisk.a '$(DESTDIR)$(LIBDIR)'
	install -m 644 include/filmdisk.h '$(DESTDIR)$(INCLUDEDIR)'
	sed -e 's|@PREFIX@|$(PREFIX)|' -e 's|@LIBDIR@|$(LIBDIR)|' -e 's|@INCLUDEDIR@|$(INCLUDEDIR)|' \
	    -e 's|@VERSION@|$(VERSION)|' filmdisk.pc.in >'$(DESTDIR)$(PKGCONFIGDIR)/filmdisk.pc'
	for name in $(PROGRAMS); do \
	    sed 's|@VERSION@|$(VERSION)|' man/$$name.1 >'$(DESTDIR)$(MANDIR)/man1/'$$name.1; done
	sed 's|@VERSION@|$(VERSION)|' man/filmdisk.3 >'$(DESTDIR)$(MANDIR)/man3/filmdisk.3'

# Removes what `make install` with the same places put there; folders stay, as others may use them.
uninstall:
	for name in $(PROGRAMS); do \
	    rm -f '$(DESTDIR)$(BINDIR)/'$$name '$(DESTDIR)$(MANDIR)/man1/'$$name.1; done
	rm -f '$(DESTDIR)$(LIBDIR)/libfilmdisk.a' '$(DESTDIR)$(INCLUDEDIR)/filmdisk.h' '$(DESTDIR)$(PKGCONFIGDIR)/filmdisk.pc' \
	    '$(DESTDIR)$(MANDIR)/man3/filmdisk.3'

# The library against the model for some minutes, from another seed each time; CASES is another count.
CASES = 200000
cases: library
	@sh tests/tools cc cargo
	@sh tests/host/build target/staticlib target-tests/host >target/cases.log 2>&1 || { cat target/cases.log; exit 1; }
	@target-tests/host/rust/release/library_cases $$(date +%s) $(CASES)

# The C entry points against their plain C twin on inputs that a fuzzer makes, for a minute; FUZZ_SECONDS is another time.
FUZZ_SECONDS = 60
fuzz: library
	@sh tests/tools cc
	@sh tests/fuzz/run target/staticlib target-tests/fuzz $(FUZZ_SECONDS)

# The library against plain C, in one run, or with EARLIER=libfilmdisk.a of an earlier commit against that; docs/BENCH.md tells how. Not
# part of the gate.
EARLIER =
bench:
	@sh bench/run $(EARLIER)

# Changes the code, one small change at a time, and has the prover judge each; docs/MUTANTS.md tells how. MUTANTS is what else the tool is
# told, as '--crate card --count 40'. Not part of the gate.
MUTANTS = --count 12
mutants:
	@sh tests/tools rt python3 cargo
	@cargo build --quiet --offline --locked --release --manifest-path tests/model/Cargo.toml
	@python3 -B tests/mutants/mutants.py run $(MUTANTS)

# The pictures of docs/PICTURES.md, drawn from calls of the library.
pictures: library
	@sh tests/tools cc
	@sh pictures/run target/staticlib/libfilmdisk.a docs/pictures

# Lays the sources out.
fmt:
	@sh tests/tools rt
	@for crate in crates/*/src; do (cd "$${crate%/src}" && rt fmt) || exit 1; done
