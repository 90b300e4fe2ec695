#!/bin/bash
# The tests, as `make quick`, `make package` and `make test` call them: files, with options of tests/conftest.py. The last line counts all.
# `make test` leaves a record in out/record.
. "$(dirname "$0")/lib/try.sh"
set -o pipefail
export CARGO_INCREMENTAL=0 # what cargo builds here is built once
program=crates/fhpgas/out/fhpgas
checked=$PWD/out/checked/fhpgas
package=(tests/package/{lattices,blocks,drawing,flows,processes,commands,explanations}.py) # the tests of the package that runs lattices
touch "$room/parts"

# tests WORDS..: pytest's tests in these files, beside one another, and then those that want the machine alone
tests() {
    local mark words status
    for mark in 'not alone' alone; do
        [ "$mark" != alone ] || grep -qs 'mark\.alone' -- "$@" || continue
        words=("$@") status=0
        [ "$mark" = alone ] || words+=(-n "$(nproc)")
        pytests -m "$mark" "${words[@]}" 2>&1 | tee "$room/log" || status=$?
        [ $status = 5 ] || echo "$*: $(tail -n 1 "$room/log")" >> "$room/parts" # 5: there is none
        [ $status = 5 ] || [ $status = 0 ] || bad+=("$*")
    done
}

# sources: what needs no program
sources() {
    tests tests/scripts.py -k lint
    tests tests/documents/{links,sentences,budgets,definitions,proved,promises,weakened}.py tests/program/code_without_contract.py \
        tests/package/{imports,derivation,tested_functions}.py
}

# examples NAME..: whether the sources print what these worked examples want, compiled once and without a proof
examples() {
    mkdir "$room/cases"
    tests/lib/examples.py "$room/cases" "$@"
    (cd crates/fhpgas && rt try --cases "$room/cases")
}

# quick: for the time between edits. A program that FHPGAS names, or that is built and newer than the sources, is tried from outside, else a
# few worked examples by `rt try`, in some minutes. Nothing is proved. Without the kit the program is the launcher's, which builds it first.
quick() {
    sources
    if [ -z "${FHPGAS-}" ] && [ -e crates.txt ] && ! command -v rt > /dev/null; then
        [ -x "$program" ] || has cargo 'the program' || return 0
        FHPGAS=$(tools/program) || { bad+=('plain Rust builds') && return; }
        export FHPGAS
    fi
    if [ -n "${FHPGAS-}" ] || [ ! -e crates.txt ] || make -sq "$program"; then
        tests tests/program/{command_line,help,mutated_scenes}.py tests/documents/printed_commands.py "${package[@]}" --scenes 300
    else
        try 'the worked examples' examples check_rectangles head_on_left obstacle_1 seeded_pairs filling coarse_uneven replay_done
    fi
}

# package: the package, the notebook, the page and the experiments, on the program that FHPGAS names, or on the engine and what make built
package() {
    tests tests/documents/printed_commands.py "${package[@]}" tests/package/{engine,notebook,experiments,wheel,tiles}.py tests/page/browser.py
    tests tests/scripts.py -k page
    tests tests/plain/calls.py -k modules
}

# plain: builds the sources by plain Rust, without the kit, with every check on, and tries them: the crates' own tests, the program, the
# library beside the proved one, what differs, the crate for Rust, and the line under sanitizers
plain() {
    has cargo 'plain Rust' || return 0
    try 'plain Rust builds' plain/build.sh out/checked checked
    FHPGAS=$checked tests tests/scripts.py -k 'crates or front'
    FHPGAS=$checked tests tests/plain/{stripping,differences}.py tests/program/{command_line,mutated_scenes}.py --scenes 300
    tests tests/plain/{calls,sanitizers}.py -k 'libraries or threads' # the other sanitizer is for a release
    tests tests/plain/gauge.py
}

# gate: proves every crate from scratch, tries the wrong bodies of must-fail/ one by one, and runs the tests and the stored runs of the
# programs. A wrong body that is refused only by a name says little of a contract.
gate() {
    rt ci 2>&1 | tee "$room/gate" || exit 1
    echo x86-64-v2 > "${program%/*}/level" # for which rt builds
    rm -f python/fhpgas/libfhpgas-* # to be built over what was proved now
    if grep 'only because a proof file names what the edit took away' "$room/gate"; then
        echo 'tests: these edits say little of a contract: let them change a value and keep the names'
        exit 1
    fi
}

has_pytest() {
    "$(tests/lib/needs.py | sed -n 1p)" -c 'import pytest, xdist' 2> /dev/null && return
    echo 'tests: the tests want pytest: apt-get install python3-pytest python3-pytest-xdist' && exit 1
}

set_up() {
    tests/set_up/install.sh || exit 1
    has_pytest
}

bad=()
case $1 in
    quick)
        has_pytest
        quick
        ;;
    package)
        set_up
        if [ -z "${FHPGAS-}" ] && [ -e crates.txt ] && ! command -v rt > /dev/null && ! make -sq "$program"; then
            plain
            export FHPGAS=$checked # the only program that this machine can build
        fi
        package
        ;;
    test)
        unset FHPGAS # what is built here is tried
        set_up
        sources
        tests tests/scripts.py -k 'missing_libraries or makefile'
        tests tests/program/lost_wake_ups.py
        if has rt 'the proofs, and the tests of help, terminal, refused memory, library, release and first change'; then
            gate
            tests tests/program/wrong_bodies.py --gate "$room/gate"
            try 'the engine is built' make -s engine
            plain
            tests tests/program/{help,refused_memory,terminal}.py tests/documents/{library,first_change}.py
            tests tests/scripts.py -k release
        else
            plain
            export FHPGAS=$checked
        fi
        tests tests/program/{command_line,cells_beside_{c,golly},reference_scenes,mutated_scenes,large_scenes}.py \
            tests/documents/version.py --scenes 5000
        package
        mkdir -p out
        [ -n "${FHPGAS-}" ] || tests/set_up/record.py "$room/gate" "$room/parts" "$SECONDS" > out/record
        ;;
esac
[ ${#bad[@]} = 0 ] || printf 'FAILED in: %s\n' "${bad[@]}"
[ ${#failed[@]} = 0 ] || printf 'FAILED: %s\n' "${failed[@]}"
[ ${#left_out[@]} = 0 ] || printf 'left out: %s\n' "${left_out[@]}"
awk -v passed="$passed" -v failed="${#failed[@]}" -v out="${#left_out[@]}" '
    { gsub(",", ""); for (i = 2; i <= NF; i++) { n[$i] += $(i - 1) } }
    END { print passed + n["passed"] " passed, " failed + n["failed"] + n["error"] + n["errors"] " failed, " out + n["skipped"] " left out" }' "$room/parts"
[ ${#bad[@]} = 0 ] && [ ${#failed[@]} = 0 ]
