#!/bin/bash
# Tries ./fhpgas and the Makefile on four small crates, with stubs for the kit, cargo and wasm-opt: rt notes the crate that it is called in, and
# "builds" it unless that contains a file `refused`, whose text it prints. At last the kit itself refuses a wrong body. Ends with the counts.
. "$(dirname "$0")/../lib/try.sh"

export top=$room/top kit=$room/kit room
mkdir -p "$kit"/{bin,toolchain/bin} "$top"/crates/{low,tests,gas_export,fhpgas}/{src,must-fail} "$top"/{python/fhpgas,page,plain}
cp -r Makefile fhpgas tools include CITATION.cff "$top" && cp plain/build.sh "$top/plain"
printf '#!/bin/sh\nmkdir -p out/plain/workspace\n' > "$top/plain/workspace.py" && chmod +x "$top/plain/workspace.py"
printf "#!/bin/sh\ncp \${2%%/*}/level \$1\n" > "$top/tools/archive.sh"
printf '# the crates\nlow: core\ngas_export staticlib: low\n\nfhpgas: low clap\ntests: low\n' > "$top/crates.txt"
touch "$top"/crates/{low,tests,gas_export}/src/lib.rt "$top/crates/fhpgas/src/main.rt"
cat > "$kit/bin/rt" << 'END'
#!/bin/bash
[ ! -e "$room/no_kit" ] || { cat "$room/no_kit" >&2; exit 127; }
[ "$1" != doc ] || { echo "$kit/START-HERE.md"; exit; }
echo "${PWD##*/}" >> "$room/built"
echo half | tee out/fhpgas out/libgas_export.a > "$room/begun"
[ ! -e slow ] || sleep 2
[ ! -e refused ] || { cat refused; exit 1; }
printf 'crate %s: modules loaded=1 checked=1\nlogic=proved\n' "${PWD##*/}"
printf '#!/bin/sh\necho "words $*"\ncat\nexit 3\n' > out/fhpgas && chmod +x out/fhpgas
END
cat > "$kit/bin/rattle-link" << 'END'
#!/bin/bash
words=$*
while [ $# != 0 ]; do [ "$1" != -o ] || echo "$words" > "$2"; shift; done
END
chmod +x "$kit/bin"/* && cp "$kit/bin/rattle-link" "$kit/toolchain/bin/ld.lld"
with_all=$PATH
ln -s /usr/bin/* "$kit/bin" && rm -f "$kit/bin"/{wasm-opt,cargo}
PATH=$kit/bin
cd "$top" || exit 1

# builds WANTED COMMAND..: whether the command ends well and rt is called in these crates for it, in no other
builds() {
    : > "$room/built"
    if "${@:2}" && [ "$(sort -u "$room/built")" = "$(printf '%s' "$1" | tr ' ' '\n')" ]; then return; fi
    cat "$room/built" "$room/told"
    return 1
}

# shellcheck disable=SC2120 # words come through builds
build() { make "$@" > "$room/told" 2>&1; }

# launch: ./fhpgas passes words, input and status on
launch() {
    printf 'a scene' | ./fhpgas 'two words' x > "$room/printed" 2> "$room/told"
    [ $? = 3 ] && [ "$(cat "$room/printed")" = $'words two words x\na scene' ]
}

quietly() { launch && [ ! -s "$room/told" ]; }

# fails: ./fhpgas ends with status 70, prints nothing, and says this
fails() {
    ./fhpgas > "$room/printed" 2> "$room/told" < /dev/null
    [ $? = 70 ] && [ ! -s "$room/printed" ] && grep -q "$1" "$room/told"
}

# edit FILE: a source is newer than what was built
edit() { echo edited >> "crates/$1"; }
edited() { edit "$1" && "${@:2}"; }

try 'a missing program is built, and the engine' builds 'fhpgas gas_export' launch
try 'each crate is told as it is proved' grep -qx 'fhpgas is proved' "$room/told"
for level in v2 v3; do try "the package has the engine for $level" [ -s python/fhpgas/libfhpgas-x86-64-$level.so ]; done
try 'the name of the library has the number of the interface' \
    grep -q "libfhpgas.so.$(sed -n 's/^#define FHPGAS_INTERFACE //p' include/fhpgas.h) " python/fhpgas/libfhpgas-x86-64-v2.so
try 'it says what the page lacks' grep -q 'page/engine.js is left out: apt-get install binaryen' "$room/told"
try 'and leaves it out' [ ! -e page/engine.js ]
try 'what is built is run' builds '' quietly
try 'make builds nothing' builds '' build
try 'and says so' grep -q 'Nothing to be done' "$room/told"
cp "$kit/bin/"{rattle-link,wasm-opt}
try 'where wasm-opt is there the module is built' builds 'gas_export' build
try 'beside the page, in base64' [ "$(cat page/engine.js)" = "globalThis.FHPGAS_ENGINE = \"$(base64 -w 0 crates/gas_export/out/new/engine.wasm)\";" ]
try 'a program is built again where its source changed' edited fhpgas/src/main.rt builds 'fhpgas' launch
try 'both where a source below did' edited low/src/lib.rt builds 'fhpgas gas_export' launch
rm crates/low/src/lib.rt
try 'or is gone' builds 'fhpgas gas_export' launch
try 'other files build nothing' edited tests/src/lib.rt edited low/must-fail/no.edit builds '' quietly
try 'another level needs the program alone' builds 'fhpgas' build CPU=x86-64-v0
try 'one of a level that no machine has is built again' builds 'fhpgas' launch
touch crates/fhpgas/out/fhpgas
try 'so is one that rt built' builds 'fhpgas' launch
try 'an archive needs the program alone, for its level' builds 'fhpgas' build archive FILE="$room/packed"
try 'it is packed' grep -qx x86-64-v2 "$room/packed"
try 'the next is for this machine again' builds 'fhpgas' launch
try 'with its level beside it' grep -qx "$(tools/level)" crates/fhpgas/out/level

echo 'something else' > crates/fhpgas/refused
try 'a build that fails ends with status 70, and shows the end of a log that it does not understand' \
    edited fhpgas/src/main.rt fails 'something else'
try 'and names it' grep -q '^crate fhpgas was not built; the whole log is crates/fhpgas/out/build.log' "$room/told"
rm crates/fhpgas/refused
build
edit fhpgas/src/main.rt
mv "$kit/bin/rt" "$room/rt"
try 'without the kit a program that is older than its sources runs' launch
try 'with a warning' grep -q 'this program is older than its sources' "$room/told"
rm crates/fhpgas/out/fhpgas
try 'and without a program and without Rust it says what is missing' fails 'plain Rust needs Python 3.11, cargo'
try 'with the packages' grep -q 'apt-get install python3 rustc-web cargo-web' "$room/told"
try 'and no more' [ "$(wc -l < "$room/told")" = 2 ]
cat > "$kit/bin/cargo" << 'END'
#!/bin/sh
echo plain >> "$room/built"
case $* in *--quiet) ;; *) echo progress >&2 ;; esac
mkdir -p target/release && cp "$room/plain" target/release/fhpgas
END
printf '#!/bin/sh\necho "words $*"\ncat\nexit 3\n' > "$room/plain" && chmod +x "$kit/bin/cargo" "$room/plain"
try 'with Rust it is built by plain Rust' builds 'plain' launch
try 'which is announced once' [ "$(grep -c 'plain Rust builds this program, not proved' "$room/told")" = 1 ] && [ "$(wc -l < "$room/told")" = 1 ]
try 'and then it is run' builds '' quietly
try 'after an edit it is built again' edited fhpgas/src/main.rt builds 'plain' launch
edit fhpgas/src/main.rt
try 'on a terminal with the progress of cargo' grep -q progress <(script -qec './fhpgas < /dev/null' /dev/null)
touch out/plain/workspace/target/kept && edit fhpgas/src/main.rt
try 'over what cargo kept' eval 'launch && [ -e out/plain/workspace/target/kept ]'
cp -a "$top" "$room/copy" && cd "$room/copy" && edit fhpgas/src/main.rt
try 'but what it kept for other sources is dropped in a copy' eval 'launch && [ ! -e out/plain/workspace/target/kept ]'
cd "$top" && rm "$kit/bin/cargo" && edit fhpgas/src/main.rt
try 'without Rust a plain program that is there runs' builds '' launch
mv "$room/rt" "$kit/bin/rt"
echo "env: 'python3': No such file" > "$room/no_kit"
try 'a kit that does not run ends with status 70 too, and what it said is shown' fails "the Rattle kit does not answer.*: env: 'python3': No such file"
mv "$kit/bin/python3" "$room"
try 'but Python is named if it is what is missing' fails '^Python 3.11 is missing'
mv "$room/python3" "$kit/bin" && rm "$room/no_kit"

# meanwhile COMMAND..: runs a build that takes a while, and this in the middle of it
meanwhile() {
    rm "$room/begun" && touch crates/fhpgas/slow
    setsid make > "$room/told" 2>&1 &
    while [ ! -s "$room/begun" ]; do sleep 0.1; done
    "$@"
    wait $!
    rm crates/fhpgas/slow
}
interrupt() { kill -- -$!; }
meanwhile interrupt 2> "$room/ended"
try 'half a program of an interrupted build is built anew' builds 'fhpgas' launch
edit fhpgas/src/main.rt
meanwhile edit fhpgas/src/main.rt
try 'a source that is edited during a build is newer' builds 'fhpgas' launch
edit fhpgas/src/main.rt
: > "$room/built"
meanwhile make > /dev/null
try 'of two at once one builds' [ "$(paste -sd ' ' "$room/built")" = 'fhpgas' ]
try 'and then it is run' quietly

# and the kit itself, if it is here, on a body that does not do what its contract says
PATH=$with_all
if has rt 'a wrong body'; then
    printf '%s\n' 'wrong:' 'fhpgas: wrong' > crates.txt
    mkdir -p crates/wrong/src && echo 'fn main() {}' > crates/fhpgas/src/main.rt
    printf '%s\n' '#![tactic(auto)]' 'ghost use Rattle.std.specs.Prelude.{◌≡◌};' '/// Two.' 'pub fn two() -> u32' \
        '    ensures value { result ≡ 2 }' '{' '    1' '}' > crates/wrong/src/lib.rt
    try 'the kit refuses a wrong body, and the build says where' fails '^note: src/lib.rt:4:1: it is not proved'
    for line in '^crate wrong was not built; .* crates/fhpgas/out/build.log' '^fn wrong::two: no proof'; do try "$line" grep -q "$line" "$room/told"; done
fi
tell
