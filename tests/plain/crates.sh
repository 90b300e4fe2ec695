#!/bin/bash
# Runs the tests of the crates and of the ring by plain Rust, with all checks on: of indices, of overflow, and of what is never reached. Each
# test that is written must pass. arm.sh names another machine as CARGO_BUILD_TARGET, with LINKER and RUNNER. Ends with the counts.
. "$(dirname "$0")/../lib/try.sh"
tests=(tests_{lattice,belt,scene,pipe,tool,whole})
written=$(grep -rh '#\[test\]' "${tests[@]/#/crates/}" tests/plain/ring.rs --include='*.r[ts]' | wc -l)
target=(${CARGO_BUILD_TARGET:+--target="$CARGO_BUILD_TARGET" -Clinker="$LINKER"})
"${RUSTC:-rustc}" --edition=2024 --test "${target[@]}" tests/plain/ring.rs -o "$room/ring" || exit 1
read -r -a run <<< "${RUNNER-}"
"${run[@]}" "$room/ring" > "$room/log" || cat "$room/log"
plain/workspace.py out/checked/workspace || exit 1
cd out/checked/workspace || exit 1
offline=$([ ! -e .cargo/config.toml ] || echo --offline)
cargo test --quiet ${offline:+"$offline"} --lib --package checks >> "$room/log" 2>&1 || cat "$room/log"
ran=$(awk '/^test result: / { n += $4 } END { print n + 0 }' "$room/log")
try "all of the $written tests pass" [ "$ran" = "$written" ]
echo "$ran passed, ${#failed[@]} failed"
[ ${#failed[@]} = 0 ]
