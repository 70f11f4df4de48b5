# The targets are listed by a bare `make`. README says which to use when.
SHELL := /bin/bash
.DEFAULT_GOAL := help
.PHONY: help setup tools demo test archive desk install uninstall bench derive integration riscv demo-riscv clean
lib := target/staticlib/librvghash.a
command := target/desk/rvghash
version := $(shell cat VERSION)
PREFIX ?= /usr/local
DESTDIR ?=

help: ## lists the targets
	@awk -F ':.*## ' '/^[a-z-]+:.*## / { printf "make %-12s %s\n", $$1, $$2 }' Makefile

setup: ## installs what demo and test need from Debian's packages (as root; else prints the line that does)
	@host/setup install demo test

tools: ## says what is missing here for each target, and whether the kit is the pinned one
	@-host/setup check derive && echo "make derive: all that it needs is here"
	@-host/setup check bench && echo "make bench: all that it needs is here"
	@host/setup check demo test && echo "make demo, make test: all that they need is here"

demo: ## proves what the library needs, builds it and the example monitor, and runs that on a sample
	@host/setup check demo
	@echo "demo: proving the library's crates (some minutes from nothing)"
	@$(MAKE) --no-print-directory archive
	@mkdir -p target/host
	gcc -std=c99 -O2 -Wall -Wextra -pedantic -Iinclude examples/monitor.c $(lib) -o target/host/monitor
	target/host/monitor examples/traps.txt

# rt ci passes with a bad edit, so the log is read for one, and again for its last line, which is rt's own count.
test: ## the whole gate: proofs, from nothing but for what this machine passed before, edits that must be refused, then host/check
	@host/setup check test
	@set -o pipefail; log=$$(mktemp); trap 'rm -f "$$log"' EXIT; \
	rt ci | tee "$$log" && ! grep -E '^rt: ok.*, [0-9]+ bad' "$$log" && host/archive && host/check && tail -n 1 "$$log"

archive: $(lib) ## proves the library and writes target/staticlib/librvghash.a

$(lib): crates.txt $(shell find crates/*/src crates/*/specs crates/*/proofs -name '*.rt' -o -name '*.antt' 2>/dev/null)
	host/archive

desk: $(command) ## builds the desk's command, target/desk/rvghash, which lists words, reads them back, replays traces and checks links

$(command): $(lib) include/rvghash.h $(wildcard desk/*)
	@mkdir -p target/desk
	gcc -std=c99 -O2 -Wall -Wextra -pedantic -Iinclude desk/*.c $(lib) -o $@

install: $(lib) $(command) ## installs archive, header, pkg-config file and bin/rvghash under PREFIX (/usr/local), below DESTDIR
	install -d "$(DESTDIR)$(PREFIX)/lib/pkgconfig" "$(DESTDIR)$(PREFIX)/include" "$(DESTDIR)$(PREFIX)/bin"
	install -m 644 $(lib) "$(DESTDIR)$(PREFIX)/lib/librvghash.a"
	install -m 644 include/rvghash.h "$(DESTDIR)$(PREFIX)/include/rvghash.h"
	install -m 755 $(command) "$(DESTDIR)$(PREFIX)/bin/rvghash"
	sed -e 's|@PREFIX@|$(PREFIX)|' -e 's|@VERSION@|$(version)|' rvghash.pc.in >"$(DESTDIR)$(PREFIX)/lib/pkgconfig/rvghash.pc"

uninstall: ## removes what install wrote
	rm -f "$(DESTDIR)$(PREFIX)/lib/librvghash.a" "$(DESTDIR)$(PREFIX)/include/rvghash.h" \
		"$(DESTDIR)$(PREFIX)/lib/pkgconfig/rvghash.pc" "$(DESTDIR)$(PREFIX)/bin/rvghash"

bench: $(EARLIER) $(lib) ## measures the library beside its peers, with EARLIER=ARCHIVE beside that build too; writes docs/BENCHMARKS.md
	@host/setup check bench
	host/bench/run $(lib) $(EARLIER)

derive: ## derives the known answers' data again, and compares it with the recorded checksums
	@host/setup check derive
	for script in host/derive/*.py; do /usr/bin/python3 $$script || exit 1; done
	sha256sum --check host/derive/SHA256SUMS

integration: riscv ## measures the libraries; writes the tables of docs/INTEGRATION.md and the checksums and last line of docs/AUDIT.md
	@host/setup check integration
	host/integration --write $(lib) x86-64
	for arch in rv64gc rv64imac; do host/integration --write target/riscv64/$$arch/librvghash.a $$arch; done
	host/tests/audit --write

riscv: $(lib) ## writes the box's libraries, target/riscv64/rv64gc/librvghash.a and target/riscv64/rv64imac/librvghash.a
	@host/setup check riscv
	host/riscv/build

demo-riscv: riscv ## runs the guest of examples/trap, whose instructions trap, under qemu-riscv64
	@host/setup check demo-riscv
	host/riscv/demo

clean: ## removes all that was built
	rm -rf target
