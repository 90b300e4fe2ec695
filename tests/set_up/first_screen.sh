#!/bin/bash
# Types README's "Try it" in a bare Debian 12, in the folder ROOM that bare_debian.sh makes: its packages, and in a new clone, as root and as a
# user, the blocks for shell and Python, which must print what README says and draw a picture. Then what a packager and a contributor type.
# KIT=no tries all that without the kit. By hand, as root, for a release; at the end `tests/set_up/bare_debian.sh ROOM umount`. Ends with the
# counts.
if [ -z "${1-}" ]; then sed -n 's/^# \?//p' "$0" >&2; exit 2; fi
debian=$(realpath -m -- "$1")
. "$(dirname "$0")/../lib/try.sh"
block() { sed -n "/^\`\`\`$1\$/,/^\`\`\`\$/ { /^\`\`\`/!p }" README.md; }
in_room() { AS=$user tests/set_up/bare_debian.sh "$debian" bash -ec "$1"; }
prints() { [ "$(in_room "$1")" = "$2" ]; }
packed='make wheel && make archive FILE=out/fhpgas.tar.gz && DRAFT=yes make release && ls out/fhpgas.tar.gz out/release/SHA256SUMS'

rm -rf "$debian"/{root,home/student}/fhpgas
for user in root student; do
    try "the shell prints what README says, as $user" prints "$(block sh)" "$(block text)"
    try "and Python draws" in_room "export PYTHONPATH=\$PWD/python; $(printf 'python3 -c %q' "$(block python)"); test -s disc.png"
    try "a case by pytest, as $user" in_room 'python3 -m pytest -q tests/program -k head_on'
done
user=root
try 'packages of Python are made, and an archive, and a release' in_room "apt-get install python3-pip python3-wheel > /dev/null; $packed"
try 'make quick' in_room 'make quick'
tell
