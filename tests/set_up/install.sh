#!/bin/bash
# Sets up what the tests want beside the kit: Debian's packages, as root or by `sudo -n`. Libraries that Python still lacks go into a
# virtual environment, as requirements.txt pins them, if pip reaches an index. SETUP=no changes nothing. Says what it installs, which Python
# the tests use, and what is still missing.
cd "$(dirname "$0")/../.." || exit 1
tools='python3 shellcheck pyflakes3 black mypy spin bgolly:golly cc:gcc cc:libc6-dev pkg-config ffmpeg chromium chromedriver:chromium-driver
    firefox:firefox-esr node:nodejs tsc:node-typescript esbuild wasm-opt:binaryen rustc:rustc-web cargo:cargo-web
    wasm-ld:lld valgrind'
crates='arrayvec clap crossbeam-utils rand-chacha rand-pcg thiserror toml' # of which plain Rust takes the sources
sudo=$([ "$(id -u)" = 0 ] || echo sudo -n)
log=$(mktemp)
trap 'rm "$log"' EXIT

# look: finds the Python of the tests, what libraries it has and lacks, and the packages of all that is missing
look() {
    { read -r python && read -r has && read -r venv && read -r -a lacks; } < <(! command -v python3 > /dev/null || tests/lib/needs.py)
    mapfile -t missing < <(
        for tool in $tools; do command -v "${tool%:*}" > /dev/null || echo "${tool#*:}"; done
        [ -d /usr/lib/rustlib/src/rust/library ] || printf '%s\n' rustc-web rust-web-src # for the page's kernel
        for crate in $crates; do
            compgen -G "/usr/share/cargo/registry/${crate/rand-/rand_}-[0-9]*" > /dev/null || echo "librust-$crate-dev"
        done
        [ ${#lacks[@]} = 0 ] || { /usr/bin/python3 tests/lib/needs.py own 2> /dev/null || echo "${lacks[@]}"; } | tr ' ' '\n' |
            sed -n 's/^pillow=/pil=/; s/^\(.*\)==.*/python3-\L\1/p'
    )
}

# apt-get itself waits for dpkg's lock, but not for the lock of its lists
apt() { $sudo env LC_ALL=C DEBIAN_FRONTEND=noninteractive apt-get -y -o DPkg::Lock::Timeout=300 "$@" > "$log" 2>&1 < /dev/null; }

install_missing() {
    if [ ${#missing[@]} = 0 ] || ! command -v apt-get > /dev/null || ! $sudo true 2> /dev/null; then return; fi
    echo "installing by apt-get: ${missing[*]}"
    until apt update || ! grep -q 'Could not get lock' "$log" || ((waits++ == 20)); do sleep 15; done
    apt install --no-install-recommends "${missing[@]}" ||
        for package in "${missing[@]}"; do apt install --no-install-recommends "$package" || tail -n 1 "$log"; done
    look
}

look
if [ "${SETUP-}" != no ]; then
    known=$python
    install_missing
    [ -n "$known" ] || install_missing # what libraries a new Python lacks is known only now
    if [ ${#lacks[@]} -gt 0 ] && "$python" -m pip --version > /dev/null 2>&1; then
        echo "installing by pip in $venv: ${lacks[*]}"
        [ "$python" = "$venv/bin/python" ] || "$python" -m venv --clear --without-pip --system-site-packages "$venv"
        "$python" -m pip --python "$venv" install -q --retries 1 --timeout 15 "${lacks[@]}" > "$log" 2>&1 || tail -n 1 "$log"
        look
    fi
fi
echo "the tests use ${python:-no Python}: $has"
[ ${#missing[@]} = 0 ] || echo "missing, and what wants it is left out: apt-get install ${missing[*]}"
[ -n "$python" ]
