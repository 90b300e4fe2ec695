#!/bin/bash
# Packs the sources as plain Rust into FOLDER, for `cargo build --release --offline` without Python or a network, and what they build for
# Linux on x86-64, and with the word `aarch64` on ARM 64 too: the program and a wheel. The builds trust the proofs of TEXT and check no index.
# The crates of others, with their licences, are the ones with which out/checked was built and tested. No part of the kit is in them.
set -euo pipefail
shopt -s nullglob
if [ $# -lt 2 ]; then echo 'usage: plain/archive.sh FOLDER TEXT [aarch64]' >&2; exit 2; fi
mkdir -p "$1"
folder=$(realpath -- "$1")
cd "$(dirname "$0")/.."
top=$PWD
"$(tests/lib/needs.py | sed -n 1p)" -c 'import pip, wheel' 2> /dev/null ||
    { echo 'a wheel needs pip and wheel: apt-get install python3-pip python3-wheel' >&2; exit 1; }
version=$(sed -n 's/^version: //p' CITATION.cff)
room=$(mktemp -d)
trap 'rm -rf "$room"' EXIT
name=fhpgas-$version-rust
made=$room/$name

plain/workspace.py "$made" ${2:+--proved "$2"}
cp out/checked/workspace/Cargo.lock "$made" 2> /dev/null || env -C "$made" cargo generate-lockfile --quiet # of which cargo package may write none
(cd "$made" && cargo package --quiet --allow-dirty --no-verify && cp target/package/*.crate "$folder" && rm -r target) # for crates.io
cp docs/NOTICES.md include/fhpgas.h "$made"
registry=$(sed -n 's/^directory = "\(.*\)"/\1/p' "$made/.cargo/config.toml" 2> /dev/null) || true
if [ -n "$registry" ]; then # Debian's crates: Cargo 1.85 deletes there, as root, what it vendors
    mkdir "$made/vendor"
    awk -F '"' '/^name/ { name = $2 } /^version/ { version = $2 } /^source/ { print name "-" version }' "$made/Cargo.lock" |
        (cd "$registry" && xargs cp -rLt "$made/vendor")
else
    env -C "$made" cargo vendor --quiet --versioned-dirs
fi
mkdir -p "$made/.cargo" "$room/licences/rust"
printf '[source.%s]\n%s\n' crates-io 'replace-with = "vendor"' vendor 'directory = "vendor"' > "$made/.cargo/config.toml"
crates=("$made"/vendor/*)
if [ ${#crates[@]} = 0 ]; then echo 'cargo has no crate of others to pack' >&2; exit 1; fi
for crate in "${crates[@]}"; do
    notices=("$crate"/LICENSE*) licences=$room/licences/$(basename "${crate%-*}")
    if [ ${#notices[@]} = 0 ]; then echo "$crate has no licence" >&2; exit 1; fi
    mkdir "$licences"
    cp "${notices[@]}" "$licences"
done
cat > "$made/README" << END
fhpgas $version by plain Rust. Needs Rust 1.85 or later and a linker.

    cargo build --release --offline --package engine

makes target/release/fhpgas, and the library for C of fhpgas.h. The sources are made from the proved ones of Luqembisho, ${2:-edited}, whose
proofs a release build trusts. What this compiler makes of them is tested and not proved. A build without --release checks each index.
vendor/ has the crates of others, each with its licence (NOTICES.md).
END
tar -C "$room" -czf "$folder/$name.tar.gz" "$name"

# build LEVEL WORDS..: from the archive alone, in release/ or in release/ of a target
build() { env -C "$made" RUSTFLAGS="-Ctarget-cpu=$1" cargo build --release --offline --locked --quiet --package engine "${@:2}"; }

# hand_out MACHINE RUSTC RELEASE LIBRARY..: the program, and a wheel with it and the libraries, and with the notices of that Rust's library
hand_out() {
    mkdir "$room/$1"
    cp -r "$room/licences" "$made/target/$3/fhpgas" "${@:4}" "$room/$1"
    notices=("$("$2" --print sysroot)"/share/doc/rust/COPYRIGHT-library.htm[l] /usr/share/doc/libstd-rust*-dev/copyright)
    if [ ${#notices[@]} = 0 ]; then echo "the notices of Rust's library are missing" >&2; exit 1; fi
    cp "${notices[0]}" "$room/$1/licences/rust"
    cp "$room/$1/fhpgas" "$folder/fhpgas-linux-$1"
    "$top/tools/wheel.sh" "$folder" "$room/$1"
}

cd "$room"
rm -r "$made"
tar -xzf "$folder/$name.tar.gz"
build x86-64-v3 --lib --no-default-features ${2:+--features trusting} # the levels of processors that the package knows
cp "$made/target/release/libfhpgas.so" "$room/libfhpgas-x86-64-v3.so"
build x86-64-v2
cp "$made/target/release/libfhpgas.so" "$room/libfhpgas-x86-64-v2.so"
hand_out x86_64 rustc release "$room"/libfhpgas-x86-64-*.so

# the first compiler that has the library of ARM 64, of which Debian has packages
[ "${3-}" = aarch64 ] || exit 0
target=aarch64-unknown-linux-gnu
has_library() { [ -d "$("$1" --print target-libdir --target $target 2> /dev/null)" ]; }
for rustc in /usr/bin/rustc rustc none; do ! has_library "$rustc" || break; done
if [ "$rustc" = none ] || ! command -v aarch64-linux-gnu-gcc > /dev/null; then
    echo 'ARM 64: dpkg --add-architecture arm64; apt-get install rustc-web libstd-rust-web-dev:arm64 gcc-aarch64-linux-gnu' >&2
    exit 1
fi
RUSTC=$rustc CARGO_TARGET_AARCH64_UNKNOWN_LINUX_GNU_LINKER=aarch64-linux-gnu-gcc build generic --target $target
cp "$made/target/$target/release/libfhpgas.so" "$room/libfhpgas-aarch64.so"
hand_out aarch64 "$rustc" $target/release "$room/libfhpgas-aarch64.so"
