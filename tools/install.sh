#!/bin/bash
# Puts the built fhpgas, and what programs in C want of the engine, into the folder PREFIX: the header, the library for every machine of the
# kit, and what pkg-config reads. With the word `remove` it takes them out. `make install` and `make uninstall` call it. DESTDIR, if it is set,
# stands before all paths, as for a package.
set -euo pipefail
if [ -z "${1-}" ]; then echo 'usage: tools/install.sh PREFIX [remove]' >&2; exit 2; fi
prefix=$(realpath -m -- "$1")
cd "$(dirname "$0")/.."
into=${DESTDIR-}$prefix
library=libfhpgas.so.$(sed -n 's/^#define FHPGAS_INTERFACE //p' include/fhpgas.h)
if [ "${2-}" = remove ]; then
    rm -f "$into"/{bin/fhpgas,include/fhpgas.h,lib/"$library",lib/libfhpgas.so,lib/pkgconfig/fhpgas.pc}
    exit
fi
program=crates/fhpgas/out/fhpgas built=python/fhpgas/libfhpgas-x86-64-v2.so
[ -e crates.txt ] || program=./fhpgas # in an archive
[ -e "$program" ] || program=out/plain/fhpgas # where nothing is proved
[ -e "$built" ] || built=python/fhpgas/libfhpgas-$(uname -m).so
for file in "$program" "$built"; do
    [ -e "$file" ] || { echo "$file is missing: make, or without the kit make plain, comes before make install" >&2; exit 1; }
done
install -D -t "$into/bin" "$program"
install -D -m 644 -t "$into/include" include/fhpgas.h
install -D -m 644 "$built" "$into/lib/$library"
ln -sf "$library" "$into/lib/libfhpgas.so"
mkdir -p "$into/lib/pkgconfig"
cat > "$into/lib/pkgconfig/fhpgas.pc" << END
prefix=$prefix
libdir=\${prefix}/lib

Name: fhpgas
Description: lattice gases over memory that the caller gives
Version: $("$program" --version | cut -d ' ' -f 2)
Cflags: -I\${prefix}/include
Libs: -L\${libdir} -Wl,-rpath,\${libdir} -lfhpgas
END
