#!/bin/bash
# Builds by plain Rust, without the kit, in FOLDER: the program fhpgas and the library for C with its header. Nothing of it is proved.
#
#   plain/build.sh FOLDER           for this machine's level of processors. Sources as a commit has them are trusted to be proved.
#   plain/build.sh FOLDER checked   for every machine, and every index is looked at, as in a build of edited sources
#   plain/build.sh trusted          prints the name of these sources, nothing if they were edited, and builds nothing
#
# The Python package has the library too unless it has a better one. The crates of others are Debian's packages if they are here, else cargo
# downloads them. QUIET=yes prints nothing but errors, and on a terminal cargo's progress.
set -euo pipefail
shopt -s extglob nullglob
if [ -z "${1-}" ]; then sed -n 's/^# \?//p' "$0" >&2; exit 2; fi
folder=$(realpath -m -- "$1")
cd "$(dirname "$0")/.."
sources=(crates crates.txt plain)
trusted=$(git log -1 --format='commit %h' -- "${sources[@]}" 2> /dev/null || sed -n 's/^version: /the sources of fhpgas /p' CITATION.cff)
[ -z "$(git status --porcelain -- "${sources[@]}" 2> /dev/null)" ] || trusted=''
if [ "$1" = trusted ]; then echo "$trusted" && exit; fi
mkdir -p "$folder"
wants='plain Rust needs Python 3.11, cargo 1.85 and some crates. On Debian 12:
    apt-get install python3 rustc-web cargo-web librust-{arrayvec,clap,crossbeam-utils,rand-chacha,rand-pcg,thiserror,toml}-dev'
type python3 cargo > /dev/null 2>&1 || { echo "$wants" >&2; exit 1; }

touch "$folder/begun"
level=native
[ "$(uname -m)" != x86_64 ] || level=$(tools/level)
if [ "${2-}" = checked ]; then
    level='' trusted=''
elif [ -z "$trusted" ]; then
    echo 'the sources were edited after their proof, so every index is tested' >&2
fi
plain/workspace.py "$folder/workspace" ${trusted:+--proved "$trusted"}
# what cargo keeps names the place of its sources, so a copy of this folder would build those that it was copied from
[ "$(cat "$folder/place" 2> /dev/null)" = "$folder" ] || rm -rf "$folder/workspace/target"
echo "$folder" > "$folder/place"
[ -z "${QUIET-}" ] || [ -t 2 ] || quiet=yes
cd "$folder/workspace"
RUSTFLAGS=${level:+-Ctarget-cpu=$level} cargo build --release --package engine ${quiet:+--quiet} || { echo "$wants" >&2; exit 1; }
cd - > /dev/null
for file in "$folder"/workspace/target/release/{fhpgas,libfhpgas.so,libfhpgas.dylib,fhpgas.dll} include/fhpgas.h; do
    [ -e "$file" ] || continue
    cp "$file" "$folder/new" # what runs is not overwritten
    mv "$folder/new" "$folder/${file##*/}"
done
echo "$level" > "$folder/level"
touch -r "$folder/begun" "$folder/fhpgas" "$folder/level"

# a proved library stays, and one that is trusted before one that is checked
own=python/fhpgas/libfhpgas-$(uname -m).so proved=(python/fhpgas/libfhpgas-x86-64-*)
for library in "$folder"/@(libfhpgas.so|libfhpgas.dylib|fhpgas.dll); do
    if [ ${#proved[@]} = 0 ] && { [ "${2-}" != checked ] || [ ! -e "$own" ] || grep -q 'plain Rust, checked' "$own"; }; then
        cp "$library" "$own.new"
        mv "$own.new" "$own"
    fi
done
[ -n "${QUIET-}" ] || {
    echo "$folder has fhpgas, libfhpgas and fhpgas.h. fhpgas run --generations 1 < scenes/head_on.toml prints:"
    "$folder/fhpgas" --version
    "$folder/fhpgas" run --generations 1 < scenes/head_on.toml
}
