# make try            runs the program on an example, with no proof
# make run            proves and builds the program, and runs it on a capture and a recording
# make install        puts the built program, its manual page and the library, where it is built, below DESTDIR and PREFIX
# make library        proves and builds the library for C in build/: archives, shared library, header
# make library-test   builds and runs its callers in C, C++, Rust and Python
# make test           the merge gate and all other tests; the last line is 'N passed, M failed'
# make bench          the program beside a handler in plain Rust, on PRESET=day; bench/README.md has the others
# make wrong-bodies   tries the wrong bodies that the gate has no time for; CRATE=NAME: those of one crate

SHELL := /bin/bash
program := crates/mdp_handler/out/mdp_handler
page := docs/mdp_handler.1
PREFIX := /usr/local
DESTDIR :=
PRESET := day

.PHONY: try run install install-library library library-test test bench wrong-bodies build

# What rt says is shown only where the run did not end well.
try:
	@echo "not proved yet; make run proves" >&2
	@log=$$(mktemp); trap 'rm -f "$$log"' EXIT; \
	(cd crates/mdp_handler && rt try < ../../examples/plain.capture 2> "$$log") || { cat "$$log" >&2; exit 1; }

run: build
	@$(program) < examples/plain.capture
	@$(program) --channel examples/multicast.channel < examples/multicast.pcap

build:
	@tools/prove.py

install:
	@[ -x $(program) ] || { echo "there is no $(program); make run builds it" >&2; exit 1; }
	install -D -m 755 $(program) "$(DESTDIR)$(PREFIX)/bin/mdp_handler"
	install -D -m 644 $(page) "$(DESTDIR)$(PREFIX)/share/man/man1/mdp_handler.1"
	@[ ! -e build/libmdp_handler.a ] || $(MAKE) --no-print-directory install-library

install-library:
	@[ -e build/libmdp_handler.a ] || { echo "there is no library in build/; make library builds it" >&2; exit 1; }
	install -d "$(DESTDIR)$(PREFIX)/include" "$(DESTDIR)$(PREFIX)/lib/pkgconfig"
	install -m 644 build/mdp_handler.h "$(DESTDIR)$(PREFIX)/include"
	install -m 644 build/libmdp_handler.a build/liblibc_c.a "$(DESTDIR)$(PREFIX)/lib"
	install -m 755 build/libmdp_handler.so "$(DESTDIR)$(PREFIX)/lib"
	sed -e 's|^libdir=.*|libdir=$(PREFIX)/lib|' -e 's|^includedir=.*|includedir=$(PREFIX)/include|' build/mdp_handler.pc \
		> "$(DESTDIR)$(PREFIX)/lib/pkgconfig/mdp_handler.pc"

library:
	@tools/library.sh

library-test:
	@tests/run_library.sh $(wildcard $(program))

test:
	@tests/run_all.sh

bench:
	@bench/compare.sh $(PRESET)

wrong-bodies:
	@tests/run_wrong_bodies.sh $(CRATE)
