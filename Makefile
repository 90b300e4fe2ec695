# Has rt prove the crates, over what it kept in crates/*/out of earlier proofs, and links the programs.
#
#   make                  builds fhpgas for this machine (CPU=x86-64-v2: for that level) and the engine
#   make engine           builds the engine for Python and C, python/fhpgas/libfhpgas-*.so, and for the page, page/engine.js, if wasm-opt is here
#   make quick            runs the tests for the time between edits, which prove nothing (one case: pytest tests/program -k NAME)
#   make package          runs the tests of the package, the notebook and the page, on the program that FHPGAS names
#   make test             sets up what is missing (SETUP=no: nothing), proves all from scratch, and runs every test
#   make install          puts what is built into PREFIX (/usr/local): the program, and the header and the library for C; make uninstall removes it
#   make page             bundles page/src, and the kernel by plain Rust, into page/fhpgas.html, by esbuild
#   make definitions      writes the definitions that all promises rest on to out/DEFINITIONS.md (FOR=run: prints those of the contract of run)
#   make plain            builds fhpgas and the library for C by plain Rust, without the kit and not proved, into out/plain
#   make crate            makes the crate fhpgas, for programs in Rust, into out/crate
#   make wheel            packs the Python package into out/, with program and engine for Linux, and without them for other systems
#   make archive FILE=F   packs fhpgas, built for x86-64-v2, into F, a .tar.gz for machines without the kit
#   make release          makes out/release with all that is handed out, and their sums (DRAFT=yes: without record or reference too)
#   make clean            removes all that was built
SHELL := /bin/bash
.SHELLFLAGS := -euo pipefail -c
.ONESHELL:
.DEFAULT_GOAL := $(if $(wildcard crates.txt),all,help)
MAKEFLAGS += -r --no-print-directory
unexport MAKEFLAGS MFLAGS

.PHONY: quick package test page definitions install uninstall clean help
quick package test: ; @tests/all.sh $@
page: ; @node page/build.mjs
definitions: ; @mkdir -p out && tests/documents/definitions.py $(if $(FOR),/dev/stdout,out/DEFINITIONS.md) $(FOR)
PREFIX ?= /usr/local
install: ; @tools/install.sh "$(PREFIX)"
uninstall: ; @tools/install.sh "$(PREFIX)" remove
clean: ; rm -rf crates/*/out out $(if $(wildcard crates.txt),python/fhpgas/libfhpgas-*.so page/engine.js)
help: ; @sed -n 's/^#   //p' Makefile | grep -vE '$(if $(wildcard crates.txt),^$$,^make (  |engine|plain|crate|wheel|archive|release))'

# All below builds. An unpacked archive, in which the rest works too, has no crates.
ifneq ($(wildcard crates.txt),)
.PHONY: all engine plain crate wheel archive release again
program := crates/fhpgas/out/fhpgas
engine := $(addprefix python/fhpgas/libfhpgas-x86-64-,v2.so v3.so) $(if $(shell command -v wasm-opt),page/engine.js)

# The level that is asked for, or else what this machine has. A program that runs here is taken as it is: rt builds for x86-64-v2. What was
# built since by another command, or not to the end, has no level.
CPU = $(if $(filter archive release wheel,$(MAKECMDGOALS)),x86-64-v2)
own := $(shell tools/level)
built := $(shell [ $(program) -nt crates/fhpgas/out/level ] || cat crates/fhpgas/out/level 2> /dev/null)
again := $(if $(filter $(or $(CPU),x86-64-v2 $(own)),$(built)),,again)

# The files of a crate and of all that it uses, by crates.txt, in which lower crates come first.
below = $(wildcard $(shell tac crates.txt | tr -d : | awk '$$1 == "$1" || $$1 in used { for (i = 1; i <= NF; i++) used[$$i] } \
    END { for (it in used) print "crates/" it }'))
files = crates.txt $(shell find $(call below,$1) -mindepth 1 \( -name out -o -name must-fail \) -prune -o -print)

# One build at a time works here. What it makes is as old as its begin, so a source that is edited meanwhile is newer. Of its log is told
# what is proved, or what is not.
alone = exec {held}< crates.txt; flock -n $$held || { echo 'waiting for another make to end'; flock $$held; }
define begin
$(alone)
! make -sq CPU=$(CPU) $@ || exit 0
type python3 > /dev/null 2>&1 || { echo 'Python 3.11 is missing, which the kit and this build need: apt-get install python3' >&2; exit 1; }
said=$$(rt doc 2>&1) || { echo "the Rattle kit does not answer, see README.md: $$said" >&2; exit 1; }
cd crates/$1
mkdir -p out && rm -f out/level && touch out/begun
fail() {
    name=$$(sed -n 's/^rt: the library \(.*\) did not build.*/\1/p' out/build.log)
    echo "crate $${name:-$1} was not built; the whole log is crates/$1/out/build.log"
    grep -m 12 -E 'error(\[|:)|is not proved|: no proof|must prove|may be false' out/build.log | cut -c 1-400 || tail -n 20 out/build.log
    exit 1
} >&2
tell() { tee out/build.log | sed -un '/^crate .* checked=[1-9]/h; /^logic=proved/ { x; s/^crate \(.*\): .*/\1 is proved/p }; /^rt: waiting\|left out/p'; }
endef

all: $(program) engine
engine: $(engine)
$(program): $(call files,fhpgas) $(again)
	@$(call begin,fhpgas)
	rt run --list-axioms --jobs $$(nproc) --cpu $(or $(CPU),$(own)) -- --version < /dev/null 2>&1 | tell || fail
	echo $(or $(CPU),$(own)) > out/level
	touch -r out/begun out/fhpgas out/level
$(engine) &: $(call files,gas_export) tools/inside.sh
	@$(call begin,gas_export)
	../../tools/inside.sh < /dev/null 2>&1 | tell || fail
	touch -r out/begun $(engine:%=../../%)

# By plain Rust. The launcher has it built if it is older than its sources or for a level that this machine lacks.
plain := out/plain/fhpgas
plain: ; @$(call alone); plain/build.sh out/plain
crate: ; @plain/workspace.py out/crate
$(plain): crates.txt include/fhpgas.h $(shell find crates/*/src plain/* -name __pycache__ -prune -o -print) \
        $(if $(filter-out native x86-64-v2 $(own),$(shell cat out/plain/level 2> /dev/null)),again)
	@$(call alone)
	! make -sq $@ || exit 0
	QUIET=yes plain/build.sh out/plain

# The next build is for this machine again.
packed := $(if $(shell command -v rt),all)
wheel: $(packed) ; @rm -rf out/built && tools/built.sh out/built $(program) && tools/wheel.sh out out/built && tools/wheel.sh out any && $(forget)
archive: $(if $(FILE),$(packed)) ; @tools/archive.sh "$(FILE)" $(program) && $(forget)
release: $(packed) ; @tools/release.sh out/release $(program) && $(forget)
forget := rm -f crates/fhpgas/out/level
endif
