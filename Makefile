# make        proves and builds the programs into bin/ and runs them on examples/
# make test   runs the proofs and tests that a change must pass, besides make edits
# make edits  tries every edit that must fail, and tests the script that does so; run make first
# make memory-test   refuses each allocation of a few tests in turn; with ALL=1, of every test
# make lint   runs the installed formatters and linters, and finds what rt ci refuses at sight
# make quick  runs the fast checks, and rt check of the changed crates: under five minutes
# make clean  removes what was proved and built: bin/, bench/out/, and out/ of each crate
# make bench  runs the measurements of bench/
# make tools-test   tests python/, tools/ and make install; needs bin/ and Python 3.8
# make library      proves and builds the library for C: bin/libmcf.so, bin/libmcf.a and bin/mcf.h
# make library-test tests the library from C, C++, Rust and Python: some four minutes
# make dist         packs programs, tools and library into bin/dist/: a .deb, a wheel and a tar.gz
# make dist-test    tests these packages elsewhere; the .deb needs debootstrap and root
# make page         builds the page bin/mcf.html; needs rt, Binaryen, LLVM's wasm64 builtins, esbuild
# make page-test    tests the page in headless Chromium and Firefox, by node: a minute
# make install      installs everything that is built under PREFIX, with DESTDIR before it
# make uninstall    removes exactly what make install installs

.PHONY: all kit lint quick test edits memory-test clean bench tools-test library library-test dist dist-test page page-test install install-library uninstall
.NOTPARALLEL:

# Builds the programs among the crates of crates.txt. The log is bin/proofs.log.
all: kit
	@scripts/build.py
	@scripts/examples.sh

kit:
	@command -v rt >/dev/null || { echo "make: rt isn't on the path; it comes with the Rattle kit, whose first page is START-HERE.md at the top of the kit's folder" >&2; exit 1; }

# First checks that docs/ agrees with the code and the spec files, and that `mcf --version` names
# the logic of this kit.
test: kit
	@scripts/documents.py check
	@grep -qF "with Rattle, $$(rt version | sed 's/.* logic /logic /')\\n" crates/mcf_suite/src/version.rt || { echo "make test: crates/mcf_suite/src/version.rt names another logic than: $$(rt version)" >&2; exit 1; }
	@scripts/build.py --all
	@scripts/side_by_side.py scripts/examples.sh scripts/tools_test.sh scripts/page_test.sh \
		'python3 scripts/refuse_memory.py --built --only six_rows --minutes 15 $(WITH_TESTS)'
	@timeout 120 scripts/install_test.sh

# Uses the libraries that make or make test built, and tries only what changed since the last time.
edits: kit
	@scripts/edits_test.py
	@scripts/edits.py

# Refuses each allocation in turn in tests of a few worked rows, or with ALL=1 in every test. It
# proves and builds the tests first, which takes as long as make.
WITH_TESTS = mcf_suite_tests mcf_text_tests mcf_reading_tests mcf_net_tests mcf_tests mcf_engine_tests mcf_matrix_tests mcf_plan_tests
memory-test: kit
	@python3 scripts/refuse_memory.py $(if $(ALL),,--only six_rows) $(WITH_TESTS)

lint:
	@scripts/documents.py check
	@scripts/comments.py check
	@scripts/words.py check
	@scripts/speeds.py check
	@scripts/pictures.py check
	@scripts/allocations.py
	@python3 python/tests/plans.py check
	@python3 python/tests/rosters.py check
	@scripts/lint.sh

quick:
	@scripts/ci.py --quick

clean:
	rm -rf bin bench/out crates/*/out python/mcf/_small.abi3.so

bench:
	@python3 bench/run.py

tools-test:
	@scripts/tools_test.sh
	@timeout 120 scripts/install_test.sh

library: kit
	@scripts/library.sh

library-test:
	@scripts/library_test.sh

# Builds nothing: it packs the results of `make` and `make library` in bin/.
dist:
	@scripts/dist.py

dist-test:
	@scripts/dist_test.sh

page: kit
	@page/build.sh && python3 page/pack.py

page-test:
	@test -f bin/mcf.html || { echo "make page-test: bin/mcf.html isn't there; run make page first" >&2; exit 1; }
	@command -v node > /dev/null || { echo "make page-test: node isn't there" >&2; exit 1; }
	@node page/click.mjs

PREFIX = /usr/local
BIN = $(DESTDIR)$(PREFIX)/bin
MAN = $(DESTDIR)$(PREFIX)/share/man/man1
PROGRAMS = mcf mcfcheck mcfplan
TOOLS = mcf_plan mcf_explain mcf_one
PACKAGES = mcf_plan mcf_explain
BASH = $(DESTDIR)$(PREFIX)/share/bash-completion/completions
ZSH = $(DESTDIR)$(PREFIX)/share/zsh/site-functions
SHARED = $(DESTDIR)$(PREFIX)/share/mcf
PYTHON = $(SHARED)/python
LIB = $(DESTDIR)$(PREFIX)/lib
INCLUDE = $(DESTDIR)$(PREFIX)/include
VERSION = $(shell sed -n 's/.*"mcf \([0-9.]*\).*/\1/p' crates/mcf_suite/src/version.rt)

# Builds nothing, so that one user can install what another user proved.
install:
	@for program in $(PROGRAMS); do test -x bin/$$program || { echo "make install: bin/$$program isn't there; run make first" >&2; exit 1; }; done
	install -d "$(BIN)" "$(MAN)" "$(BASH)" "$(ZSH)" $(PACKAGES:%="$(PYTHON)/%")
	install -m 755 $(PROGRAMS:%=bin/%) $(TOOLS:%=tools/%) "$(BIN)"
	for package in $(PACKAGES); do install -m 644 python/$$package/*.* "$(PYTHON)/$$package" || exit 1; done
	install -m 644 $(PROGRAMS:%=man/%.1) $(TOOLS:%=man/%.1) "$(MAN)"
	install -m 644 completion/mcf.bash "$(BASH)/mcf"
	for command in mcfcheck mcfplan $(TOOLS); do ln -sf mcf "$(BASH)/$$command" || exit 1; done
	install -m 644 completion/_mcf "$(ZSH)"
	@if test -f bin/mcf.html; then install -m 644 bin/mcf.html "$(SHARED)"; else echo "install: skipped: the page, which isn't built (make page)"; fi
	@if test -f bin/libmcf.so.1; then $(MAKE) --no-print-directory install-library; else echo "install: skipped: the library, which isn't built (make library)"; fi

install-library:
	install -d "$(LIB)/pkgconfig" "$(INCLUDE)" "$(PYTHON)/mcf"
	install -m 755 bin/libmcf.so.1 "$(LIB)"
	ln -sf libmcf.so.1 "$(LIB)/libmcf.so"
	install -m 644 bin/libmcf.a "$(LIB)"
	install -m 644 library/mcf.h "$(INCLUDE)"
	sed 's|@PREFIX@|$(PREFIX)|; s|@VERSION@|$(VERSION)|' library/mcf.pc.in > "$(LIB)/pkgconfig/mcf.pc"
	install -m 644 python/mcf/*.* "$(PYTHON)/mcf"

uninstall:
	rm -f $(PROGRAMS:%="$(BIN)/%") $(TOOLS:%="$(BIN)/%")
	rm -f $(PROGRAMS:%="$(MAN)/%.1") $(TOOLS:%="$(MAN)/%.1")
	rm -f $(PROGRAMS:%="$(BASH)/%") $(TOOLS:%="$(BASH)/%") "$(ZSH)/_mcf" "$(SHARED)/mcf.html"
	rm -rf $(PACKAGES:%="$(PYTHON)/%") "$(PYTHON)/mcf"
	rm -f "$(LIB)/libmcf.so.1" "$(LIB)/libmcf.so" "$(LIB)/libmcf.a" "$(LIB)/pkgconfig/mcf.pc" "$(INCLUDE)/mcf.h"
	@rmdir "$(PYTHON)" "$(SHARED)" 2> /dev/null || true
