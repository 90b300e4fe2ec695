#!/bin/bash
# Copies to FOLDER what a build has for others: the program, or another build of it, the engine's libraries, the page's module, and in
# licences/ the notices of the kit's libraries in them, which an unpacked archive has itself. Where no kit built a program all are built by
# plain Rust.
set -euo pipefail
shopt -s extglob nullglob
if [ -z "${1-}" ]; then echo 'usage: tools/built.sh FOLDER [PROGRAM]' >&2; exit 2; fi
mkdir -p "$1"
folder=$(realpath -- "$1")
cd "$(dirname "$0")/.."
program=${2:-crates/fhpgas/out/fhpgas}
if [ ! -e "$program" ]; then
    echo 'no kit built a program here, so what is packed is built by plain Rust, and not proved' >&2
    plain/archive.sh "$folder/plain" "$(plain/build.sh trusted)"
    for wheel in "$folder"/plain/*.whl; do python3 -m zipfile -e "$wheel" "$folder/plain"; done
    mv "$folder"/plain/fhpgas/{fhpgas,libfhpgas-*.so,licences} "$folder"
    chmod +x "$folder/fhpgas"
    rm -r "$folder/plain"
    exit
fi
cp "$program" "$folder/fhpgas"
cp python/fhpgas/libfhpgas-*.so page/engine.j@(s) "$folder"
if [ -d licences ]; then cp -r licences "$folder"; exit; fi

# of the program and of the engine, and of Unicode's data, of which core has tables
kit=$(dirname "$(rt doc)")
mapfile -t engine < <(sed -n 's/ staticlib:.*//p' crates.txt)
parts=(fhpgas std "${engine[@]}")
for ((i = 0; i < ${#parts[@]}; i++)); do
    part=${parts[i]}
    for below in $(sed -n "s/^$part\( staticlib\)\?://p" crates.txt) $(sed -n 's/^dep //p' "$kit/rlibs/$part.rlib/format" 2> /dev/null); do
        case " ${parts[*]} " in *" $below "*) ;; *) parts+=("$below") ;; esac
    done
    for notice in "$kit/rattle/$part"/@(LICENSE|LICENCE|COPYING|NOTICE)*; do
        mkdir -p "$folder/licences/$part"
        cp "$notice" "$folder/licences/$part"
    done
done
mkdir -p "$folder/licences/core"
cp "$kit/rattle/unicode/LICENSE-UNICODE" "$folder/licences/core"
