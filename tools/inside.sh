#!/bin/bash
# Builds from the static library gas_export what other programs load: libfhpgas for two levels of x86-64, and the module for the page,
# engine.js, if wasm-opt is here (Debian: binaryen). The builds share one proof. As a library for C it has the number of the interface in its
# name, so that no program loads one with other calls.
set -euo pipefail
cd "$(dirname "$0")/../crates/gas_export"
kit=$(dirname "$(rt doc)") made=out/libgas_export.a new=out/new
name=libfhpgas.so.$(sed -n 's/^#define FHPGAS_INTERFACE //p' ../../include/fhpgas.h)
rm -rf $new ../../page/engine.js && mkdir -p $new
for level in x86-64-v2 x86-64-v3; do
    rt lib --jobs "$(nproc)" --cpu $level
    "$kit/toolchain/bin/ld.lld" -shared -soname "$name" -z relro -z now --gc-sections -s -Map=out/libfhpgas-$level.map \
        -o $new/libfhpgas-$level.so --whole-archive $made --no-whole-archive "$kit/c/liblibc_c.a" "$kit/toolchain/lib/libc.so.6"
done
if command -v wasm-opt > /dev/null; then
    rt lib --jobs "$(nproc)" --target wasm64-unknown-unknown
    "$kit/bin/rattle-link" --target wasm64-unknown-unknown --toolchain "$kit/toolchain" -o $new/module.wasm $made
    wasm-opt --all-features --memory64-lowering -O3 $new/module.wasm -o $new/engine.wasm
    printf 'globalThis.FHPGAS_ENGINE = "%s";\n' "$(base64 -w 0 $new/engine.wasm)" > $new/engine.js
    mv $new/engine.js ../../page
else
    echo 'page/engine.js is left out: apt-get install binaryen'
fi
rm -f ../../python/fhpgas/libfhpgas-* # plain Rust's too, which no wheel of the kit has
mv $new/*.so ../../python/fhpgas
