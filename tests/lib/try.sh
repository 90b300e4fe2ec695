#!/bin/bash
# What the bash scripts of the tests share: the top as the current folder, a room for files that goes in the end, and the counts.
cd "$(dirname "${BASH_SOURCE[0]}")/../.." || exit 1
room=$(mktemp -d) || exit 1
trap 'rm -rf "$room"' EXIT
passed=0
failed=()
left_out=()

# try NAME COMMAND..: counts whether the command ends well
try() {
    if "${@:2}"; then passed=$((passed + 1)); else failed+=("$1") && echo "FAILED: $1"; fi
}

# leave_out WHAT: counts what is left out, which fails where CI is true
leave_out() { if [ "${CI-}" = true ]; then try "$1 is left out" false; else left_out+=("$1"); fi; }

# has COMMAND WHAT: whether the command is here, without which this is left out
has() { command -v "$1" > /dev/null || { leave_out "$2, because $1 is missing" && false; }; }

# pytests WORDS..: by the tests' Python. What hangs is aborted after two hours, and Python then says where it stood.
pytests() { PYTHONFAULTHANDLER=1 timeout --foreground -v -s ABRT -k 60 7200 "$(tests/lib/needs.py | sed -n 1p)" -m pytest -q "$@"; }

# tell: prints what failed and the counts, and ends with 0 if all passed, with 77 if something was left out and the rest passed, else with 1
tell() {
    [ ${#failed[@]} = 0 ] || printf 'FAILED: %s\n' "${failed[@]}"
    echo "$passed passed, ${#failed[@]} failed${left_out:+, ${#left_out[@]} left out:$(printf ' %s;' "${left_out[@]}")}" | sed 's/;$//'
    [ ${#failed[@]} = 0 ] && { [ ${#left_out[@]} = 0 ] || return 77; }
}
