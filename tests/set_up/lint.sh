#!/bin/bash
# Has shellcheck look through the bash scripts, pyflakes3 and Black through the Python ones, and mypy through the package,
# as far as they are installed, and looks for links and for lines of the package that Black leaves too long.
. "$(dirname "$0")/../lib/try.sh"

# look SCRIPTS LINTER WORDS..: whether these scripts, one per line, pass the linter
look() { ! has "$2" "$(wc -l <<< "$1") scripts" || try "$2" xargs "${@:2}" <<< "$1"; }

look "$(grep -lE '^#!/bin/(ba)?sh' fhpgas .ci/run plain/*.sh tools/* tests/*.sh tests/*/*.sh)" shellcheck -x -P SCRIPTDIR
look "$(find setup.py bench experiments plain python scenes tests -name '*.py' 2> /dev/null)" pyflakes3
look "$(find setup.py bench experiments plain python scenes tests -name '*.py' 2> /dev/null)" black --quiet --check
try 'lines of the package have at most 100 columns' [ -z "$(grep -nE '^.{101}' python/fhpgas/*.py)" ]
try 'no symbolic link, which rt refuses' [ -z "$(find . -name .git -prune -o -type l -print)" ]
! has mypy 'the types of the package' || try mypy mypy --cache-dir="$room/mypy"
tell
