#!/bin/bash
# Makes the wheel of the Python package, with the page in it, in FOLDER, without a network: for the system of BUILT, a folder that has the
# program fhpgas, the engine's libraries libfhpgas-*.so, and in licences/ the notices of what is in them (tools/built.sh makes one), perhaps
# the page's engine.js too; beside it one of the engine alone, if this wants a C library no newer than glibc 2.17; or with the word `any` one
# for every system, without them, and the source distribution.
set -euo pipefail
if [ -z "${2-}" ]; then echo 'usage: tools/wheel.sh FOLDER BUILT|any' >&2; exit 2; fi
mkdir -p "$1"
folder=$(realpath -- "$1")
built=$(realpath -- "$2")
cd "$(dirname "$0")/.."
python=$(tests/lib/needs.py | sed -n 1p)
room=$(mktemp -d)
trap 'rm -rf "$room"' EXIT
cp -r --parents python page docs/NOTICES.md LICENSE-MIT LICENSE-APACHE README.md CITATION.cff MANIFEST.in pyproject.toml setup.py "$room"
cd "$room"
rm -rf python/*.egg-info python/fhpgas/{fhpgas,licences} python/fhpgas/libfhpgas-* page/engine.js
if [ "$2" = any ]; then
    "${python:-python3}" -c 'import setuptools.build_meta as it, sys; it.build_sdist(sys.argv[1])' "$folder" > log 2>&1 || { cat log >&2; exit 1; }
else
    cp -r "$built"/{fhpgas,libfhpgas-*.so,licences} python/fhpgas
    [ ! -e "$built/engine.js" ] || cp "$built/engine.js" page
fi
pack() { rm -rf build && "${python:-python3}" -m pip wheel -q --no-deps --no-index --no-build-isolation -w "$1" .; }
pack "$folder"
[ "$2" = any ] || { rm python/fhpgas/fhpgas && pack "$room/engine" && find "$room/engine" -name '*_2_17_*' -exec cp {} "$folder" \;; }
