# `make` alone says what there is. The times were measured on a virtual machine with four processors, which are two cores, and nothing else to do.

# The programs, each a crate; everything below is made for each of them.
PROGRAMS = seqaudit seqtool

PREFIX ?= /usr/local

# End a target with one line if its tool isn't there.
HAS_RT = command -v rt >/dev/null || { echo "There is no rt, the command of Rattle's toolchain: 'make rust' builds the same programs as plain Rust, not proved." >&2; exit 1; }
HAS_CARGO = [ -z "$$(rust/packages rust)" ] || { rust/packages --tell rust crates >&2; exit 1; }

# What a program is made of, and what of it runs.
SOURCES := crates.txt $(shell find crates -path '*/out' -prune -o -type f -print)
CODE := crates.txt .ci/quick .ci/quick-clang $(filter %.rt,$(SOURCES))

# The tests' judges assert: Python must not leave assertions out.
unexport PYTHONOPTIMIZE

.PHONY: help quick try program demo install uninstall test gate wrong-bodies layout layers clauses planned plan docs tables test-kit test-program test-erlang test-conformance test-rust test-readme test-coq rust try-page dist bench hostile clean distclean
.DELETE_ON_ERROR:

help:
	@awk -F ':.*## ' '/^[a-z-]+:.*## / { printf "make %-18s%s\n", $$1, $$2 }' $(MAKEFILE_LIST)

# A build takes one processor, and up to 2 GB.
QUICK_AT_ONCE = $(shell awk '/^MemAvailable/ { print ($$2 < 5000000 ? 1 : 2) }' /proc/meminfo)

quick: ## builds both programs without their proofs, in bin/quick/ (3 to 4 minutes; needs rt)
	@$(HAS_RT)
	@$(MAKE) --no-print-directory -j$(QUICK_AT_ONCE) $(PROGRAMS:%=bin/quick/%)

bin/quick/%: $(CODE)
	@echo "$* is built without its proofs, in 3 to 4 minutes." >&2
	@.ci/quick $* $@

try: ## builds what this machine builds quickest, and audits, explains and draws a trace of a small shop (INSTALL=1 installs what is missing, by apt)
	@tests/try $(if $(INSTALL),--install)

# Without KEEP=1 no checked module is kept. That takes a fraction of the disk, but after an edit the edited crate and all above
# it are proved from nothing.
PROVE = .ci/prove $(if $(KEEP),--keep)

program: ## proves both programs and all below them, and builds them in bin/ (18 to 23 minutes; needs rt; KEEP=1 takes more disk and makes it short after an edit)
	@$(HAS_RT)
	@$(PROVE) $(PROGRAMS)

bin/%: $(SOURCES)
	@$(HAS_RT)
	@$(PROVE) $*

demo: bin/seqaudit bin/seqtool ## runs the proved programs on examples/ and compares what they write (seconds, after program)
	@tests/demo bin/seqaudit
	@tests/demo-seqtool bin/seqtool

# The sources without their contracts, as cargo builds them: rust/README.md.
rust: ## writes the programs as plain Rust, not proved, and builds them in bin/rust/ (2 to 3 minutes; needs cargo and Python)
	@rust/build bin/rust

# The page isn't kept: docs/DECISIONS.md says why.
try-page: ## writes docs/try.html, a page in which gemshowal runs in a browser (2 to 4 minutes; needs cargo, and Rust's library for wasm32-wasip1)
	@rust/browser/build docs/try.html

dist: ## packs the sources of make rust with docs, man pages and erlang/ as bin/gemshowal-VERSION.tar.gz (seconds; needs cargo)
	@$(HAS_CARGO)
	@rust/dist

install: ## copies the programs that were built, the proved ones first, man pages and completions to PREFIX (at once)
	@if command -v erlc >/dev/null; then $(MAKE) --no-print-directory -j4 -C erlang all; fi
	@./install.sh '$(DESTDIR)$(PREFIX)'

uninstall: ## removes from PREFIX what install copied there (at once)
	@./install.sh --remove '$(DESTDIR)$(PREFIX)'

# The parts that come after the proofs run side by side if there are processors enough; those that build much come last.
PARTS_AT_ONCE = $(shell test $$(nproc) -ge 4 && nproc || echo 1)

# Repeats at the end what was skipped, and why.
test: SHELL := /bin/bash
test: ## the merge gate: all proofs from nothing, the wrong bodies of must-fail/, the tests (about 90 minutes on four processors)
	@mkdir -p bin; set -o pipefail; $(MAKE) --no-print-directory gate 2>&1 | tee bin/test.log; status=$$?; \
	echo; grep -E '\bskipped\b' bin/test.log | sort -u || echo 'Nothing was skipped.'; exit $$status

gate: layout layers clauses planned plan tables
	rt ci
	@if command -v erl >/dev/null; then $(MAKE) --no-print-directory -C erlang compiled; fi
	@$(MAKE) --no-print-directory -j$(PARTS_AT_ONCE) --output-sync=target test-program test-conformance test-rust
	@$(MAKE) --no-print-directory -j$(PARTS_AT_ONCE) --output-sync=target test-erlang test-kit test-readme test-coq

# The gate tries the wrong bodies that tell most.
wrong-bodies: ## tries all wrong bodies (an hour or more, after program)
	@.ci/wrong-bodies

layout: ## names the sources that rt fmt would lay out otherwise (20 seconds)
	@.ci/layout

# A crate cites of another crate's proofs its lemmas for callers alone, and none of its definitions for the parts alone.
# No definition and no public type has the name of another crate's, and no file of code a bare participle for its name.
layers: ## checks what each crate cites of the others, and that no name is in two (1 second)
	@.ci/layers
	@.ci/names

clauses: ## names the functions without a clause (1 second)
	@.ci/clauses

planned: ## compares the public calls with those that were planned (1 second)
	@tests/planned/compare

plan: ## plans builds of made-up crates, as make program plans the real one (1 second)
	@tests/build_plan

docs: ## writes into the pages what the sources decide: limits, counts, the functions of CALLING.md (1 second)
	@.ci/tables

tables:
	@.ci/tables --check

# Proves a small crate by a copy of the toolchain's command in which the private names are others.
test-kit: ## make program on a kit whose private names are others (1 minute; needs rt)
	@if command -v rt >/dev/null; then tests/other-kit; else echo "There is no rt here: the test of another kit is skipped."; fi

# The program that the gate, or else `make program`, built last. The paths are relative, since a blank in that of the
# checkout would divide them.
BUILT = $(firstword $(wildcard crates/seqaudit/out/seqaudit bin/seqaudit))
BUILT_TOOL = $(firstword $(wildcard crates/seqtool/out/seqtool bin/seqtool))
# The same for what runs in another folder: nothing if there is none.
SEQAUDIT_BUILT = $(if $(BUILT),'$(CURDIR)/$(BUILT)')
SEQTOOL_BUILT = $(if $(BUILT_TOOL),'$(CURDIR)/$(BUILT_TOOL)')

# All parts of tests/hostile but the growth of times, which a busy machine could spoil, and the floods of 64 MB: make
# hostile has these too.
FAULTS = memory stacks calls devices tampering limits queues floods scripts completions

# What no proof sees: the built programs on examples/, their statuses and words, random traces compared with a slow model, a
# million acts and events, and faults. Python's seeds are fixed.
test-program: ## the programs that were built last: examples/, random traces, a million acts, faults (3 minutes)
	@tests/seqaudit $(BUILT)
	@tests/demo-seqtool $(BUILT_TOOL)
	@tests/worked-cases $(BUILT_TOOL) worked-seqtool
	@if command -v python3 >/dev/null; then tests/surroundings $(BUILT) $(BUILT_TOOL) && tests/seqtool $(BUILT_TOOL) && tests/completions/small.py $(BUILT_TOOL) 2000 && tests/node_law.py && tests/hostile --tool $(BUILT_TOOL) $(BUILT) $(FAULTS); \
	else echo "There is no python3 here: seqtool's words, its small streams and the faults are skipped."; fi

# Traces of a real Erlang node, if there is one, by the programs that were built last: gemshowal by test-rust.
test-erlang: ## the tests of erlang/, with the programs that were built last (3 to 5 minutes; needs erl; some need runtime_tools)
	@if command -v erl >/dev/null; then SEQAUDIT=$(SEQAUDIT_BUILT) SEQTOOL=$(SEQTOOL_BUILT) $(MAKE) --no-print-directory -C erlang test; \
	else echo "There is no erl here (Debian's erlang-base): the Erlang tests are skipped."; fi

# The machine compared with a real node, and again with each rule of the slow model broken.
test-conformance: ## compares 200 random scripts with a real node (1 minute; needs erl and Python)
	@if command -v erl >/dev/null && command -v python3 >/dev/null; then \
	SEQAUDIT=$(SEQAUDIT_BUILT) $(MAKE) --no-print-directory -C erlang conformance conformance-broken RUNS=200; \
	else echo "There is no erl or no python3 here: the comparison with a real node is skipped."; fi

# `make rust` builds the programs that are compared with those that were built last.
test-rust: ## plain Rust: its own tests, make install and make dist, and each output compared with the programs' (3 to 4 minutes; needs cargo and Python)
	@if command -v python3 >/dev/null; then rust/test $(BUILT) $(BUILT_TOOL); \
	else echo "There is no python3 here: the plain Rust is skipped."; fi

# As a stranger's machine runs them.
test-readme: ## the README's commands on a fresh Debian 13, and the archive of make dist there (5 to 10 minutes; needs debootstrap, and root)
	@if command -v python3 >/dev/null; then tests/readme; \
	else echo "There is no python3 here: the README's commands are skipped."; fi

# The same laws in Coq, for readers without Rattle.
test-coq: ## checks coq/ from nothing, plants mistakes, and tries seqcheck (2 minutes; needs Debian's coq and Python)
	@tests/coq

bench: bin/seqaudit ## times the commands on bundles of 600,000 events, with plain Rust next to them (11 minutes, after program; needs rustc)
	bench/run

hostile: bin/seqaudit bin/seqtool ## faults, tampered text and inputs at the limits, docs/HOSTILE.md (about 10 minutes, after program)
	tests/hostile
	@if [ -x bin/rust/gemshowal ]; then scale/test bin/rust/gemshowal; \
	else echo 'A verdict by Dask with a worker that is killed is skipped: make rust builds gemshowal.'; fi

clean: ## removes what was built; keeps the proofs
	rm -rf bin
	@$(MAKE) --no-print-directory -C erlang clean

distclean: clean ## removes the proofs too
	rm -rf crates/*/out
