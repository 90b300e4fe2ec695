#!/bin/bash
# Tries by qemu what FOLDER, the plain/ of a release, has for Linux on ARM 64, or without FOLDER what plain/archive.sh makes now: the program
# by the table of cases and beside programs in C, the library of the wheel call by call beside the one for x86-64, and the crates' tests, built
# for ARM. Qemu keeps this machine's order of memory, which is stronger than ARM's, and takes the C library of Debian's arm64, which comes with
# Rust's. `make release` calls this. Ends with the counts.
folder=$([ -z "${1-}" ] || realpath -- "$1")
. "$(dirname "$0")/../lib/try.sh"
emulator=qemu-aarch64
compiler=aarch64-linux-gnu-gcc
for command in $emulator $compiler; do has "$command" 'ARM 64' || tell || exit; done

if [ -z "$folder" ]; then
    folder=$PWD/out/arm
    rm -rf "$folder"
    plain/archive.sh "$folder" 'a draft' aarch64 || exit 1
fi

# by_qemu FILE WORDS..: makes FILE, which runs the words with its own by qemu
by_qemu() { printf '#!/bin/sh\nexec %s "$@"\n' "$emulator ${*:2}" > "$1" && chmod +x "$1"; }

mkdir "$room/plain"
by_qemu "$room/plain/fhpgas" "$folder/fhpgas-linux-aarch64"
export FHPGAS=$room/plain/fhpgas
try 'the program says what it trusts' grep -q '(plain Rust, trusts the proofs of .*, not proved)' <("$FHPGAS" --version)
try 'it prints what it must' pytests -n "$(nproc)" tests/program/{command_line,cells_beside_c}.py

for machine in x86_64 aarch64; do
    try "a wheel is for $machine" python3 -m zipfile -e "$folder"/fhpgas-*-manylinux_*_$machine.whl "$room/$machine"
done
try 'it has the program' cmp "$room/aarch64/fhpgas/fhpgas" "$folder/fhpgas-linux-aarch64"
try 'and the notices' [ -s "$room/aarch64/fhpgas/licences/strsim/LICENSE" -a -s "$room/aarch64/fhpgas/licences/rust" ]
cp "$room/aarch64/fhpgas/libfhpgas-aarch64.so" "$room/libfhpgas.so.3"
$compiler -Wall -O -o "$room/calls" tests/plain/calls.c "$room/libfhpgas.so.3" || exit 1
by_qemu "$room/far" -E "LD_LIBRARY_PATH=$room" "$room/calls"
try 'its library has the calls of the one for x86-64' pytests tests/plain/calls.py -k libraries --libraries "$room/far" "$room/x86_64/fhpgas/libfhpgas-x86-64-v2.so"

export CARGO_BUILD_TARGET=aarch64-unknown-linux-gnu LINKER=$compiler RUNNER=$emulator RUSTC=/usr/bin/rustc
export CARGO_TARGET_AARCH64_UNKNOWN_LINUX_GNU_LINKER=$LINKER CARGO_TARGET_AARCH64_UNKNOWN_LINUX_GNU_RUNNER=$RUNNER
try 'the tests of the crates pass' tests/plain/crates.sh
tell
