# The commands of this repository. The kit's `rt` does the work.
unexport CDPATH # by which a script's cd goes elsewhere
PREFIX ?= /usr/local
# the names of the program that is installed and packed: it does what belongs to the one that it is called
# by; each has a manual page and completions
PROGRAMS = aprsbook aprsbook-history aprsbook-table aprsbook-fold
# as `make build` made it, and links to it by its other names
BUILT = $(PROGRAMS:%=crates/aprsbook/out/%)
PROGRAM = crates/aprsbook/out/aprsbook
HISTORY = $(PROGRAM)-history
TABLE = $(PROGRAM)-table
FOLD = $(PROGRAM)-fold

.PHONY: build run test prove check edits words map limits reading recipes cookbook bench hostile page-tests
.PHONY: arm64 static elsewhere install uninstall deb tarball release wasm clib

# the main job: the book of the sample log of two receivers, or of LOG=FILE.., and what is last known of
# whom
LOG = examples/sample.log
run:
	@build/run.sh $(LOG)

# the tests of crates, page, aprs-net and documents, and no proof; with programs of these sources, built or
# released, also those of programs
test:
	@build/gate.py test

# the gate: every proof from nothing, edits that must fail, and these tests with the program that this made, but
# those of aprs-net
prove:
	@build/gate.py prove

# the program, proved, over what was proved before
build:
	@build/gate.py build

# the gate over what was proved before; or one crate, and its edits that must fail: make check CRATE=aprs_log
check:
	@$(if $(CRATE),cd crates/$(CRATE) && rt check && cd ../.. && build/edits.py $(CRATE),build/gate.py check)

# every edit that must fail, anew, over what was proved before
edits:
	build/edits.py --anew

# the runs for other programs, each call proved: out/aprsbook.wasm for web pages, and the library for C
# and other languages, out/aprsbook.h, out/libaprsbook.a and out/libaprsbook.so
wasm:
	build/wasm.sh
clib:
	build/clib.sh

# the manual page and the completions name what the program has, the documents what the crates have and
# by the same numbers, no source makes up a want of memory, the reading list is that of the sources, the
# version is one, each edit applies, and the scripts, the gate and packaging/system.c are in order
words:
	tests/documents/version.sh
	tests/documents/words.sh
	tests/documents/sentences.py
	tests/documents/links.py
	tests/documents/outside.py
	build/limits.py --check
	tests/documents/every_byte.py
	tests/documents/names.sh
	tests/documents/numbers.sh
	tests/sources/memory.sh
	tests/sources/edits.py
	tests/sources/wrong_bodies.py
	tests/sources/pairs.py
	tests/documents/map.sh
	tests/sources/unused.py
	tests/documents/reading.sh
	tests/documents/library.sh
	tests/documents/completions.sh
	tests/sources/scripts.sh
	tests/sources/gate.py
	tests/sources/system_c.sh

# the parts of the page that need no browser, and their types, each where its tool is there: tests/page/together
# runs most files in few processes, and what has a window has one for each file
page-tests:
	@mkdir -p out
	@if command -v node > /dev/null; then \
	    node --test tests/page/together/*.js $$(grep -l '"./window.js"' tests/page/*.test.js) \
	    > out/page-tests.txt || { cat out/page-tests.txt; exit 1; }; \
	    grep -E '^# (pass|fail)' out/page-tests.txt; \
	else echo 'left out: the tests of the page (no node is there)'; fi
	@if command -v tsc > /dev/null; then tsc -p page; \
	else echo 'left out: the types of the page (no tsc is there)'; fi

# the tests of the command aprs-net, in tools, with the programs where they are built
.PHONY: tools
tools:
	@programs=$$(build/programs.sh) || programs=; set -- $$programs; tests/sources/tools.sh --all $$1

# the completions, and the synopsis and the options of the manual pages, written anew of
# completions/programs.txt
.PHONY: options
options:
	build/options.py

# the map in docs/architecture.md, drawn anew
map:
	build/map.py > docs/architecture.new
	mv docs/architecture.new docs/architecture.md

# the limits of the definitions, written into a module of Python, one of JavaScript, and documents
limits:
	build/limits.py

# the pages of docs/reading and the sums in docs/proved.md, written anew of the clauses and definitions
reading:
	build/reading.py

# what is tried with the program: 0 to 100 inputs, 200,000 receptions, lines without an end, tables of
# random logs, the README from its top, the old club's book, gaps, outputs that take nothing, what happens
# to books, folds, the units, and each awk; and with all programs: what they complain of, the history, the
# tables, the version and the packages
of_programs = $(1:%=programs/%)
TRIED = documents/readme $(call of_programs,old_book gaps full_output books fold) packages/units \
    programs/awks
TRIED_ALL = $(call of_programs,complaints history table) documents/version
passes = { $(1) || { echo 'failed: $(1)' >&2; exit 1; }; } &&
tries_many = $(call passes,tests/programs/arguments.py $(PROGRAM))
tries_large = $(call passes,tests/programs/ample.py $(PROGRAM)) \
    $(call passes,tests/programs/endless_lines.py $(PROGRAM))
tries_packages = $(call passes,tests/packages/packages.sh $(PROGRAM) $(HISTORY) $(TABLE))
tries = $(call passes,tests/programs/table.py $(TABLE) 100) \
    $(foreach it,$(TRIED),$(call passes,tests/$(it).sh $(PROGRAM))) \
    $(foreach it,$(TRIED_ALL),$(call passes,tests/$(it).sh $(PROGRAM) $(HISTORY) $(TABLE)))

# these: those of many inputs, those of large ones, the others with the recipes that need only a POSIX
# system, and the packages, all with the programs that build/programs.sh finds; then what they answer on
# other machines; each says what it leaves out because a tool isn't there
.PHONY: tried tried-many tried-large tried-here tried-packages tried-elsewhere
tried: tried-many tried-large tried-here tried-packages tried-elsewhere
tried-many tried-large tried-here tried-packages tried-elsewhere:
	@programs=$$(build/programs.sh) && set -- $$programs && \
	    $(MAKE) --no-print-directory $@-with PROGRAM=$$1 HISTORY=$$2 TABLE=$$3
.PHONY: tried-many-with tried-large-with tried-here-with tried-packages-with tried-elsewhere-with
tried-many-with:
	@$(tries_many) true
tried-large-with:
	@$(tries_large) true
tried-here-with:
	@$(tries) $(call passes,examples/cookbook.sh --posix $(PROGRAM)) true
tried-packages-with:
	@$(tries_packages) true
tried-elsewhere-with:
	@tests/programs/everywhere.sh $(PROGRAM) $(HISTORY) $(TABLE)

# the same, with the programs for other machines, where all programs are newer than their sources
recipes:
	@if build/programs.sh > /dev/null; then \
	    $(MAKE) --no-print-directory elsewhere && $(MAKE) --no-print-directory tried; \
	else echo 'left out: the recipes of the cookbook'; fi

# these, the module and the library for C, and every recipe of the cookbook whose tools are there
cookbook: build
	@$(MAKE) --no-print-directory elsewhere
	@$(tries_many) $(tries_large) $(tries) $(tries_packages) $(call passes,examples/cookbook.sh $(PROGRAM)) true
	@$(MAKE) --no-print-directory tried-elsewhere-with
	tests/sources/tools.sh --all $(PROGRAM)
	$(MAKE) --no-print-directory clib wasm page
	tests/library/clib.sh $(PROGRAM)
	tests/module/module.sh $(PROGRAM)
	tests/module/command.sh $(PROGRAM)

bench: build
	bench/run.sh $(PROGRAM)
	bench/books.sh $(PROGRAM) $(FOLD)
	bench/library.sh
	bench/tables.sh $(PROGRAM) $(TABLE) $(HISTORY)
	bench/reports.sh $(PROGRAM)

# instructions of each run, beside those that are written in bench/counts.txt
.PHONY: bench-counts
bench-counts:
	programs=$$(build/programs.sh) && set -- $$programs && bench/counts.py $$1 $$2 $$3 $$4

# the page of an event, which aprs-net fills: no proof is needed for it, but esbuild
.PHONY: event-page
EVENT_PAGE = tools/src/aprsbook_tools/data/event.html
event-page: $(EVENT_PAGE)
$(EVENT_PAGE): build/page.py $(shell find page/src page/assets -type f)
	build/page.py event $@ out/event.readable.html

# the same where its tool is there; else the page is that of the release
.PHONY: event-page-here
event-page-here:
	@if command -v esbuild > /dev/null; then $(MAKE) --no-print-directory event-page; \
	else echo 'left out: the page of an event is that of the release (no esbuild is there)'; fi

# the page that reads logs, out/aprsbook.html, and the command for Node, out/aprsbook.mjs, both with the
# module that `make wasm` built of these sources, or else that of the release, so that the page is tried
# without a proof; the command has the programs' texts of help. Beside the page is a readable one.
.PHONY: page
page: event-page
	build/page.sh

# the recipes of tracks, a page and a net that runs, each where its tools are there
.PHONY: net
cookbook: net
net: build event-page
	tests/browser/run.sh $(PROGRAM) out/aprsbook.html

# book files that nobody would write by hand: what each takes
hostile: build
	bench/hostile.sh $(PROGRAM)

# ---- for other machines, once `make build` made the programs ----

# what goes with what was made there, in the folder OUT
OUT = out
# there TARGET,FILE..: the programs are there, or it is said what makes them
there = @for it in $(2); do if [ ! -x "$$it" ]; then \
    echo "there is no program $$it yet: make $(1)" >&2; exit 1; fi; done

# the program for 64-bit ARM, such as a Raspberry Pi, proved again for that processor, by each name
ARM = $(PROGRAMS:%=out/arm64/%)
arm64: out/arm64/aprsbook
out/arm64/aprsbook: out/arm64/aprsbook.o packaging/system.c packaging/link
	packaging/link arm64 shared $< $@
	@build/names.sh $(@D) > /dev/null
out/arm64/aprsbook.o: $(PROGRAM) packaging/prove-for
	$(call there,build,$(PROGRAM))
	packaging/link arm64
	packaging/prove-for aarch64-unknown-linux-gnu aprsbook $@
$(PROGRAM):
	$(call there,build,$(PROGRAM))

# the same program without shared libraries, which any Linux runs; for ARM where its compiler is there
static: out/static/amd64/aprsbook
	@if packaging/link arm64 2> /dev/null; then \
	    $(MAKE) --no-print-directory out/static/arm64/aprsbook; \
	else echo "left out: static programs for ARM ($$(packaging/link arm64 2>&1))"; fi
out/static/amd64/aprsbook: $(PROGRAM) packaging/system.c packaging/link
	packaging/link amd64 static $(PROGRAM).o $@
	@build/names.sh $(@D) > /dev/null
out/static/arm64/aprsbook: out/arm64/aprsbook.o packaging/system.c packaging/link
	packaging/link arm64 static $< $@
	@build/names.sh $(@D) > /dev/null

# those of them whose tools are there
elsewhere:
	@if packaging/link amd64; then $(MAKE) --no-print-directory static; \
	else echo 'left out: static programs'; fi
	@if packaging/link arm64; then $(MAKE) --no-print-directory arm64; \
	else echo 'left out: programs for ARM'; fi

# ---- what follows builds nothing, so that no root runs a prover ----

# where modules are put in place for good, aprs-net begins sooner once they are compiled
compiles = python3 -m compileall -q --invalidation-mode timestamp
# the programs that are put in place: BUILT, where it is given, or those that there are of these sources
FOUND = $(if $(filter command,$(origin BUILT)),echo '$(BUILT)',build/programs.sh)
install:
	@programs=$$($(FOUND)) && for it in $$programs; do \
	    [ -x "$$it" ] || { echo "there is no program $$it yet: make build" >&2; exit 1; }; done && \
	    packaging/put-into '$(DESTDIR)$(PREFIX)' $$programs
	packaging/put-tools '$(DESTDIR)$(PREFIX)'
	@$(if $(DESTDIR),,$(compiles) '$(PREFIX)/share/aprsbook/tools/src' > /dev/null || true)

uninstall:
	packaging/take-from '$(DESTDIR)$(PREFIX)' $(BUILT)

# a package of Debian, for amd64 or ARCH=arm64
ARCH = amd64
deb:
	$(call there,$(if $(filter arm64,$(ARCH)),arm64,build),$(if $(filter arm64,$(ARCH)),$(ARM),$(BUILT)))
	packaging/make-deb '$(ARCH)' '$(OUT)' $(if $(filter arm64,$(ARCH)),$(ARM),$(BUILT))

# the package of aprs-net, for each processor, and aprs-net as one file for any system with Python
.PHONY: tools-deb pyz
tools-deb: event-page
	packaging/make-deb all '$(OUT)'
pyz: event-page
	build/pyz.py '$(OUT)/aprs-net.pyz'

# a tar file of the static programs, with what puts it in place, and with all that goes with them, or
# with the programs alone
CONTENT = all
tarball:
	$(call there,static,$(PROGRAMS:%=out/static/$(ARCH)/%))
	CONTENT='$(CONTENT)' packaging/make-tarball '$(ARCH)' '$(OUT)' $(PROGRAMS:%=out/static/$(ARCH)/%)

# all that a release has, in out/release: packages and tar files for both processors, aprs-net, the page,
# the module that it runs, and sums. What runs without a package lies in release/VERSION too, with
# SOURCES, which says of what it is made. The same commit and programs give the same files, in any folder
# and on any day.
PAGES = out/aprsbook.html out/aprsbook.wasm out/aprsbook.mjs $(EVENT_PAGE)
release:
	@for it in $(PAGES); do [ -f $$it ] || { echo "there is no $$it yet: make page" >&2; exit 1; }; done
	build/module.py out/aprsbook.html
	rm -rf out/release
	export SOURCE_DATE_EPOCH=$$(packaging/version --epoch) && for arch in amd64 arm64; do \
	    $(MAKE) --no-print-directory deb tarball ARCH=$$arch OUT=out/release || exit 1; done && \
	    $(MAKE) --no-print-directory tools-deb pyz OUT=out/release
	cp $(PAGES) out/release
	cd out/release && sums=$$(sha256sum *) && printf '%s\n' "$$sums" > SHA256SUMS
	rm -rf out/slim && for arch in amd64 arm64; do SOURCE_DATE_EPOCH=$$(packaging/version --epoch) \
	    $(MAKE) --no-print-directory tarball CONTENT=programs ARCH=$$arch OUT=out/slim || exit 1; done
	packaging/put-release out/release out/slim
