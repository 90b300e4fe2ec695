#!/bin/bash
# Makes the release of the built program, unpacks its archive far from kit and sources, and runs the program and the Python package there.
# Ends with the counts.
. "$(dirname "$0")/../lib/try.sh"

# alone WORDS..: a command in the unpacked folder, without this machine's environment
alone() { (cd "$folder" && exec env -i PATH="${path-/nowhere}" PYTHONPATH=python "$@"); }

# prints FILE SCENE: whether the unpacked program prints FILE for the scene, and leaves standard error empty
prints() { alone ./fhpgas run --generations 1 < "$2" > "$room/printed" 2> "$room/told" && cmp "$room/printed" "$1" && [ ! -s "$room/told" ]; }

needs_libc() {
    ldd "$folder/fhpgas" > "$room/needed" && ! grep -vE '^\s*(linux-vdso\.so\.1|(/lib64/)?ld-linux-x86-64\.so\.2|lib(c|m)\.so\.6) ' "$room/needed"
}

# lists: make prints its help, and no error
lists() { ! make -sC "$folder" 2>&1 | grep -v '^make \|^   '; }

# runs_inside: the package runs a lattice by its own engine, and makes the cells that the program makes
runs_inside() {
    alone python3 -c 'import fhpgas
start = fhpgas.draw_gas(0.2, size=fhpgas.Size(100, 40))
assert start.run(9) == fhpgas.run(start.scene(), 9)'
}

python=$(tests/lib/needs.py | sed -n 1p)
# has_files FILES..: whether the release has these files, which are not empty
has_files() { local file; for file; do [ -s "$room/release/$file" ] || { echo "$file is missing"; return 1; }; done; }

mkdir "$room/other place"
# unfinished: whether a release is refused that lacks something, and what was there stays
unfinished() { ! tools/release.sh "$room/release" && [ -e "$room/release/before" ]; }

if [ ! -e out/record ]; then
    mkdir "$room/release" && touch "$room/release/before"
    try 'no release without the record' unfinished 2> "$room/told"
    try 'its name is told' grep -q 'record that make test leaves, or is made with DRAFT=yes' "$room/told"
    grep -q '^repository-code: .' CITATION.cff || try 'so is the address' grep -q 'address of the project' "$room/told"
fi
mv out/checked/workspace/Cargo.lock "$room/tested.lock" # as in a clone that has no checked build
try 'the release is made' env DRAFT=yes tools/release.sh "$room/release"
mv "$room/tested.lock" out/checked/workspace/Cargo.lock
version=$(crates/fhpgas/out/fhpgas --version | cut -d ' ' -f 2)
archive=fhpgas-$version-linux-x86-64.tar.gz
try 'it has archive, page and lesson' has_files "$archive" fhpgas.html LESSON.md NOTICES.md LICENSE-MIT LICENSE-APACHE
try 'it has wheels for Linux, of the engine for older ones, and for all systems' [ "$(find "$room/release" -maxdepth 1 -name '*.whl' | wc -l)" = 3 ]
# took TAGS..: whether of all wheels of the release pip takes the one with these words in its name
took() {
    rm -rf "$room/taken"
    "$python" -m pip download -q --no-deps --no-index --find-links "$room/release" --find-links "$room/release/plain" -d "$room/taken" "${@:2}" fhpgas &&
        find "$room/taken" -name "$1" | grep -q .
}
try 'of these and the plain ones pip takes the proved one' took '*-1proved-*_2_34_x86_64.whl'
try 'on an older system it takes the engine' took '*-1proved-*_2_17_x86_64.whl' --platform manylinux_2_28_x86_64 --platform manylinux_2_17_x86_64
try 'and their source' has_files "fhpgas-$version.tar.gz"
try 'the sums are of all that is in it' [ "$(find "$room/release" -type f | wc -l)" = "$(($(grep -c '' "$room/release/SHA256SUMS") + 1))" ]
try 'and are right' env -C "$room/release" sha256sum --check --quiet SHA256SUMS
try 'the archive unpacks' tar -xzf "$room/release/$archive" -C "$room/other place"
folder=$(echo "$room/other place"/*)
try 'it holds one folder' [ -d "$folder" ]
try 'and in it nothing but files and folders' [ -z "$(find "$folder" ! -type f ! -type d)" ]
try 'it is the built program' cmp "$folder/fhpgas" crates/fhpgas/out/fhpgas

printf 'generation 1 particles 2\n....02..\n........\n..10....\n' > "$room/wanted"
try 'it prints the two particles flown apart' prints "$room/wanted" "$folder/scenes/head_on.toml"
try 'it needs the C library alone' needs_libc

try 'make lists there what it can do, and no error' lists
try 'it has the definitions' grep -q '^## .gas_geom/specs/Fhp1.antt' "$folder/docs/DEFINITIONS.md"
try 'the links of its documents lead to what is in it' pytests "$folder/tests/documents/links.py"
path=${python%/*}
try 'the Python package finds the program' alone python3 -m fhpgas over-time scenes/wind.toml 2 1 > "$room/told"
try 'it has an engine of its own' runs_inside
if command -v wasm-opt > /dev/null; then try 'the page has the engine' cmp "$folder/page/engine.js" "$room/release/engine.js"; else leave_out "the page's engine"; fi
try 'C has the header and an example' [ -s "$folder/include/fhpgas.h" -a -s "$folder/examples/profile.c" ]
FHPGAS=$folder/fhpgas try 'its wheel works' pytests tests/package/wheel.py -k for_linux --wheel "$folder"/fhpgas-*_2_34_x86_64.whl

# What may be passed on: sources that cargo took without Python, and a program and a wheel of them, which trust the proofs.
plain=$room/release/plain
tested() { awk -F '"' '/^name/ { name = $2 } /^version/ { version = $2 } /^source/ { print name "-" version }' out/checked/workspace/Cargo.lock; }
packed() { tar -tzf "$plain/fhpgas-$version-rust.tar.gz" | sed -n 's|^[^/]*/vendor/\([^/]*\)/.*|\1|p'; }
try 'plain Rust has the crates that were tested, and no others' diff <(tested | sort) <(packed | sort -u)
try 'its program says what it trusts' grep -q '(plain Rust, trusts the proofs of a draft of commit .*, not proved)' <("$plain/fhpgas-linux-x86_64" --version)
FHPGAS=$plain/fhpgas-linux-x86_64 try 'and prints what it must' pytests -n "$(nproc)" tests/program/command_line.py
try 'and the crate for Rust' has_files "plain/fhpgas-$version.crate"
try 'its wheel unpacks' "$python" -m zipfile -e "$plain"/fhpgas-*.whl "$room/plain"
for level in v2 v3; do
    try "its library for $level has the calls of the proved one" pytests tests/plain/calls.py -k libraries --libraries {"$room/plain",python}/fhpgas/libfhpgas-x86-64-$level.so
done
try 'and has the notices' [ -s "$room/plain/fhpgas/licences/strsim/LICENSE" -a -s "$room/plain/fhpgas/licences/rust" ]

if "$python" -c 'import sphinx, numpydoc' 2> /dev/null; then try 'it has the reference of the package' grep -q fhpgas.random_gas.draw_gas "$folder/docs/reference/index.html"; fi
try 'README names the level' grep -qE 'built for x86-64-v[23]$' "$folder/README"
try 'README says that there is no proof in hand' grep -q 'holds no proof' "$folder/README"
for file in LICENSE-MIT LICENSE-APACHE; do try "$file" cmp "$file" "$folder/$file"; done
for file in clap/LICENSE-MIT crossbeam_utils/LICENSE-MIT rand_chacha/LICENSE-MIT rtrb/LICENSE-MIT toml/LICENSE-MIT \
    arrayvec/LICENSE-MIT serde/LICENSE-MIT thiserror/LICENSE strsim/LICENSE ryu/LICENSE ryu/LICENSE-ZMIJ core/LICENSE-UNICODE; do
    try "the notice $file" [ -s "$folder/licences/$file" ]
done
try "Unicode's notice is its licence, version 3" grep -q 'UNICODE LICENSE V3' "$folder/licences/core/LICENSE-UNICODE"
tell
