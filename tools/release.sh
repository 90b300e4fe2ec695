#!/bin/bash
# Makes FOLDER anew with all that is handed out: the archive of the built fhpgas, or of another build of it, the Python wheels, the page with
# its engine, the record of the last `make test`, a sheet for a lesson, the licences, in plain/ what may be passed on as it is, and the sums of
# all. There is no release that lacks one of the things below, unless DRAFT=yes, which leaves out ARM 64 too.
set -euo pipefail
if [ -z "${1-}" ]; then echo 'usage: make release' >&2; exit 2; fi
folder=$(realpath -m -- "$1")
cd "$(dirname "$0")/.."
python=$(tests/lib/needs.py | sed -n 1p)

has() { "${@:2}" 2> /dev/null || [ "${DRAFT-}" = yes ] || lacks+=("$1"); }

lacks=()
program=${2:-crates/fhpgas/out/fhpgas}
version=$(sed -n 's/^version: //p' CITATION.cff)
commit=$(git rev-parse HEAD)$([ -z "$(git status --porcelain)" ] || echo ', changed')
has 'the address of the project (repository-code in CITATION.cff)' grep -q '^repository-code: .' CITATION.cff
has "the tag v$version" grep -qx "v$version" <(git tag --points-at HEAD)
has 'the record that make test leaves' test -e out/record
has 'the sources that its record names' grep -qx "commit *$commit" out/record
has 'cargo' type cargo > /dev/null
has 'the build of plain Rust that make test tries' test -e out/checked/workspace/Cargo.lock
has 'gcc and qemu for ARM 64 (apt-get install gcc-aarch64-linux-gnu qemu-user)' type aarch64-linux-gnu-gcc qemu-aarch64 > /dev/null
has 'the reference of the package (apt-get install python3-sphinx python3-numpydoc)' "${python:-python3}" -c 'import sphinx, numpydoc'
[ ${#lacks[@]} = 0 ] || { printf 'a release has %s, or is made with DRAFT=yes\n' "${lacks[@]}" >&2; exit 1; }
rm -rf "$folder"
mkdir -p "$folder"
[ -e "$program" ] && kind='' || kind=plain- # where no kit built a program
archive=$folder/fhpgas-$version-${kind}linux-x86-64.tar.gz # fhpgas-VERSION.tar.gz is the name of the package's source
tools/archive.sh "$archive" "$program"
tar -xzf "$archive" -C "$folder" --strip-components=1 --wildcards '*/fhpgas-*.whl'
tools/wheel.sh "$folder" any
cp page/fhpgas.html docs/NOTICES.md LICENSE-MIT LICENSE-APACHE "$folder"
sed -E 's/\[([^]]*)\]\([^)]*\)/\1/g' docs/LESSON.md > "$folder/LESSON.md" # without links, because the other documents are in the archive
[ ! -e page/engine.js ] || cp page/engine.js "$folder"
if [ -e out/record ]; then cp out/record "$folder/RECORD"; fi
if ! command -v cargo > /dev/null; then
    echo 'plain/ is left out, because cargo is missing' >&2
elif [ "${DRAFT-}" = yes ]; then
    plain/archive.sh "$folder/plain" "a draft of commit $commit"
else
    plain/archive.sh "$folder/plain" "commit $commit" aarch64
    tests/plain/arm.sh "$folder/plain"
fi
cd "$folder"
sums=$(find -- * -type f | LC_ALL=C sort | xargs sha256sum)
echo "$sums" > SHA256SUMS
echo "$folder: $(grep -c '' SHA256SUMS) files, and their sums"
