#!/usr/bin/env bash
# igb_check_claims against the checker written a second time (tests/outside/claims.rs), on what `rt lib` built in crates/igbezolum_c: files of claims that a
# writer makes for formulas at random, and the same files damaged. Words: SEED and how many formulas (1 and 20,000 if none are given).
cd "$(dirname "$0")/.." || exit 2
PATH=$PATH:${HOME:-/root}/.cargo/bin
archive=target/staticlib/libigbezolum.a
[ -r "$archive" ] || { echo "claims: no $archive: run ./build first"; exit 2; }
if ! command -v rustc >/dev/null 2>&1; then
    echo "claims: rustc is not here: left out"
    exit 0
fi
rustc --edition 2021 -O -g -D warnings -L target/staticlib -l static=igbezolum -o target/claims tests/outside/claims.rs || exit 2
card=examples/surface_ring.cnf
target/claims --write $card | cmp - examples/surface_ring.claims || { echo "claims: examples/surface_ring.claims is not what the writer makes"; exit 1; }
target/claims "${1:-1}" "${2:-20000}"
