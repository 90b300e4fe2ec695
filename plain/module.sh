#!/bin/bash
# Builds FOLDER/module.wasm, the page's kernel, by plain Rust from the same sources: the calls of include/fhpgas.h as WebAssembly of 32 bits.
# It trusts the proofs of these sources, which the gate proves, and is not proved. Ends with the compiler's version. What the calls need of
# Rust's library is built from its sources, because Debian has no library for this target. wasm-ld is of Debian's lld.
set -euo pipefail
if [ -z "${1-}" ]; then echo 'usage: plain/module.sh FOLDER' >&2; exit 2; fi
mkdir -p "$1"
folder=$(realpath -- "$1")
cd "$(dirname "$0")"
target=wasm32-unknown-unknown

# Debian's compiler before others, because the page in the repository is built by it
for rustc in /usr/bin/rustc rustc ''; do
    sources=$("$rustc" --print sysroot 2> /dev/null)/lib/rustlib/src/rust/library || continue
    [ ! -d "$sources/core" ] || break
done
[ -n "$rustc" ] || { echo 'there is no Rust with the sources of its library: apt-get install rustc-web rust-web-src' >&2; exit 1; }
version=$("$rustc" --version | cut -d ' ' -f 2)

# Rust's library for the target, once for a compiler
root=$folder/rust-$version
library=$root/lib/rustlib/$target/lib
edition=$(sed -n 's/^edition = "\(.*\)"/\1/p' "$sources/core/Cargo.toml")
built() {
    RUSTC_BOOTSTRAP=1 "$rustc" --target "$target" --edition "$edition" --crate-type rlib --crate-name "$1" -O -C panic=abort \
        --cap-lints allow -Z force-unstable-if-unmarked --sysroot "$root" -L "$library.new" --out-dir "$library.new" "$2"
}
if [ ! -d "$library" ]; then
    mkdir -p "$library.new"
    built core "$sources/core/src/lib.rs"
    # what Rust 1.85 makes of comparisons calls memcmp
    built compiler_builtins - <<< '#![feature(compiler_builtins)] #![compiler_builtins] #![no_std]
        #[unsafe(no_mangle)] unsafe extern "C" fn memcmp(a: *const u8, b: *const u8, n: usize) -> i32 {
            (0..n).map(|i| unsafe { *a.add(i) as i32 - *b.add(i) as i32 }).find(|it| *it != 0).unwrap_or(0)
        }'
    built alloc "$sources/alloc/src/lib.rs"
    mv "$library.new" "$library"
fi

./workspace.py "$folder/workspace" --proved "the sources of $(sed -n 's/^version: /fhpgas /p' ../CITATION.cff)"
cd "$folder/workspace"
flags="--sysroot $root -C linker=wasm-ld -C link-arg=-zstack-size=65536 -C target-feature=+simd128,+bulk-memory"
RUSTC=$rustc CARGO_PROFILE_RELEASE_STRIP=true CARGO_PROFILE_RELEASE_LTO=true CARGO_TARGET_WASM32_UNKNOWN_UNKNOWN_RUSTFLAGS=$flags \
    cargo build --release --quiet --package engine --lib --no-default-features --features trusting --target "$target"
cp "target/$target/release/fhpgas.wasm" "$folder/module.wasm"
echo "$version"
