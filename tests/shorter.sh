#!/usr/bin/env bash
# The program `show_shorter` against the rules written a second time (tests/reference), on what `rt` built: the examples,
# formulas of crates/vectors, and texts at random. Each text is read back, and is its own shorter file where its run is settled. Words: SEED and how
# many texts (1 and 600 if none are given).
cd "$(dirname "$0")/.." || exit 2
program=target/bin/show_shorter
[ -x "$program" ] || { echo "shorter: no $program: run .ci/run or ./build first"; exit 2; }
reference=target/reference
rustc -O -D warnings -o "$reference" tests/reference/reference.rs || exit 2
"$reference" --shorter "$program" examples/*.cnf crates/vectors/data/*.cnf && "$reference" --shorter-random "$program" "${1:-1}" "${2:-600}"
