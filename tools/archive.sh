#!/bin/bash
# Packs the built fhpgas, or another build of it, into FILE, a .tar.gz, for machines without the kit: with the Python package and the engine's
# libraries, also as a wheel, the header, the page with its module, the notebooks, the experiments, the scenes, the documents and what they link
# to, the tests, the record of the last `make test`, and the licences of all that is in it. `make archive FILE=F` makes a build for this
# first.
set -euo pipefail
shopt -s extglob nullglob
if [ -z "${1-}" ]; then echo 'usage: make archive FILE=NAME.tar.gz' >&2; exit 2; fi
file=$(realpath -- "$1")
cd "$(dirname "$0")/.."
program=${2:-crates/fhpgas/out/fhpgas}
level=$(cat "${program%/*}/level" 2> /dev/null || echo x86-64-v2) # rt builds for v2, without writing the level down
room=$(mktemp -d)
trap 'rm -rf "$room" "$file.new"' EXIT
tools/built.sh "$room/built" "$program"
program=$room/built/fhpgas version=$("$room/built/fhpgas" --version)
case $version in *'not proved)') plain=-plain ;; *) plain='' ;; esac
name=${version% (*}
folder=$room/${name/ /-}$plain-$level
mkdir "$folder"
cp -r "$room"/built/{fhpgas,licences} LICENSE-MIT LICENSE-APACHE README.md CHANGELOG.md CITATION.cff CONTRIBUTING.md Makefile "$folder"
cp MANIFEST.in pyproject.toml setup.py "$folder"
cp -r @(docs|examples|experiments|include|notebooks|page|python|scenes|tests) "$folder"
tests/documents/definitions.py "$folder/docs/DEFINITIONS.md"
mapfile -t linked < <(grep -rohP '(\]\(|^\[[^]]+\]: )(\.\./)*\K(bench|crates|plain)/[^)#]+' --include='*.md' "$folder" | sort -u)
cp -r --parents tools/{built,install,wheel}.sh "${linked[@]}" "$folder"
find "$folder" \( -name __pycache__ -o -name out -o -name .mypy_cache -o -name build -o -name '*.egg-info' \) -prune -exec rm -r {} +

# what the tests of these sources printed, and the sum of this build of the program
checksum() { sha256sum < "$1" | cut -c 1-64; }
if [ -e out/record ]; then
    { cat out/record && printf '\nThe program of this archive: SHA-256 %s\n' "$(checksum "$program")"; } > "$folder/RECORD"
else
    echo 'the archive has no record: make test leaves one' >&2
fi

tools/wheel.sh "$folder" "$room/built" || echo 'the archive has no wheel: apt-get install python3-pip python3-wheel' >&2
tools/reference.sh "$folder/docs/reference" || echo 'the archive has no reference: apt-get install python3-sphinx python3-numpydoc' >&2

cat > "$folder/README" << END
$version, built for $level

    ./fhpgas run --generations 1 < scenes/head_on.toml
    ./fhpgas --help
    PYTHONPATH=python python3 -m fhpgas --help
    jupyter notebook notebooks/first_class.ipynb
    page/fhpgas.html, opened in a browser on any system, shows a gas that moves
    make install PREFIX=\$HOME/fhpgas installs the program, and the header and the library for programs in C

The program needs Linux on x86-64, a processor of that level, and the C library glibc, version
$(grep -aoP 'GLIBC_\K2[.0-9]+' "$program" | sort -V | tail -n 1) or later. The Python package needs Python 3.11 and numpy, its pictures matplotlib, smoothing and fits
scipy. pip installs it from the .whl file without a network. Begin with docs/GUIDE.md. Who changes the package tries it by make package.

$(if [ -n "$plain" ]; then echo 'This program is built by plain Rust, and is not proved.'; else echo 'This program is taken on the word of who made it. A build from the sources of Luqembisho proves each part of it first, and
makes nothing if a proof fails; but a program by itself holds no proof, and nothing here shows that this one came from such
a build. RECORD, if it is here, has what their tests printed, and the checksum of this program.'; fi)

The licence of the program, the package and the documents is MIT or Apache-2.0, at your choice. The folder licences has the
notices of the libraries that are in the program and in the engine, python/fhpgas/libfhpgas-*.so and page/engine.js.
$([ -n "$plain" ] || echo "For libraries of its own, such as core, std and atomic_table, the Rattle kit names no licence: ask its distributor before you
pass these files on (docs/NOTICES.md). Tables of core are made of Unicode's data.")
END
tar -C "$room" -czf "$file.new" "${folder##*/}"
mv "$file.new" "$file"
[ ! -e out/record ] || printf '\n%s: SHA-256 %s\n' "${file##*/}" "$(checksum "$file")" >> out/record
