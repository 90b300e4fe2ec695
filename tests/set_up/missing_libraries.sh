#!/bin/bash
# Tries tests/set_up/install.sh in a small tree that wants libraries which nobody has, with stubs for apt-get and sudo, and a folder with a
# wheel for pip. Ends with the counts.
. "$(dirname "$0")/../lib/try.sh"

top=$room/top venv=$room/cache/fhpgas-tests
mkdir -p "$top"/tests/{lib,set_up} "$room/index" "$room/bin" && cp tests/lib/needs.py "$top/tests/lib"
sed '/^tools=/,/^crates=/d; /rust-web-src/d' tests/set_up/install.sh > "$top/tests/set_up/install.sh" && chmod +x "$top/tests/set_up/install.sh"
export PIP_NO_INDEX=1 PIP_FIND_LINKS=$room/index XDG_CACHE_HOME=$room/cache PATH=$room/bin:$PATH
unset SETUP
stub() { printf '#!/bin/sh\n%s\n' "$2" > "$room/bin/$1" && chmod +x "$room/bin/$1"; }
stub id "cat $room/user"
stub sudo "[ -e $room/may ] && [ \$1 = -n ] && shift && exec \"\$@\""
stub sleep "echo sleep >> $room/asked"
stub apt-get "echo \${4#*=} \$5 \$6 >> $room/asked; [ ! -e $room/lock ] || { rm $room/lock; echo E: Could not get lock; exit 1; }"
info=$room/wheel/of_this_test-1.2.dist-info
mkdir -p "$info"
tee "$info/METADATA" > "$info/WHEEL" <<< $'Metadata-Version: 2.1\nName: of-this-test\nVersion: 1.2\nWheel-Version: 1.0\nTag: py3-none-any'
touch "$info/RECORD" "$room/wheel/of_this_test.py"
printf 'import needs, of_this_test\n' > "$top/tests/lib/script.py"

sets_up() { : > "$room/asked" && "$top/tests/set_up/install.sh" > "$room/told" 2>&1; }
tells() { grep -qE "$1" "$room/told"; }
asks() { sets_up; [ "$(paste -sd ' ' "$room/asked")" = "$1" ] || { cat "$room/asked" && false; }; }

echo of-this-test==1.2 > "$top/tests/lib/requirements.txt"
installed='update install --no-install-recommends python3-of-this-test'
echo 0 > "$room/user"
try 'SETUP=no installs nothing' eval 'SETUP=no asks ""'
try 'and names what is missing, with its package' tells '^missing.* python3-of-this-test$'
try 'root installs it' asks "$installed"
try 'and says so' tells '^installing by apt-get: python3-of-this-test$'
touch "$room/lock"
try "another's lock is waited for" asks "update sleep $installed"
echo 1000 > "$room/user"
try 'a user without root does not' asks ''
try 'what pip cannot find either is named' tells '^missing.* python3-of-this-test$'
touch "$room/may"
try 'one with sudo does' asks "$installed"
rm "$room/may"
if python3 -m pip --version > /dev/null 2>&1; then
    python3 -m zipfile -c "$room/index/of_this_test-1.2-py3-none-any.whl" "$room"/wheel/*
    sets_up
    try 'what pip finds is used in the wanted version' tells "^the tests use $venv/bin/python: Python 3.* with of-this-test 1.2$"
    try 'and is not missing any more' eval '! tells python3-of-this-test'
    try 'a script that needs it finds it' python3 "$top/tests/lib/script.py"
    try 'and no link is left in the repository' [ -z "$(find "$top" -type l)" ]
    echo nowhere==3.4 >> "$top/tests/lib/requirements.txt"
    sets_up
    try 'one that is missing beside it is named' tells '^missing.* python3-nowhere$'
    try 'while the other is used' tells 'with of-this-test 1.2$'
else
    leave_out 'a folder of wheels, because Python lacks pip'
fi
tell
