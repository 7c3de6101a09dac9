#!/usr/bin/env bash
# The program `why` against the rules written a second time (tests/reference), on what `rt` built: the examples, formulas of
# crates/vectors, and texts at random; what it says of a word that is no literal; and, where picosat is installed, that what is kept for 200
# formulas forces, and less one clause does not. Words: SEED and how many texts (1 and 300 if none are given).
cd "$(dirname "$0")/.." || exit 2
program=target/bin/why
[ -x "$program" ] || { echo "why: no $program: run .ci/run or ./build first"; exit 2; }
reference=target/reference
rustc -O -D warnings -o "$reference" tests/reference/reference.rs || exit 2

# says WHAT EXPECTED WORDS...: on standard error, with nothing on standard output
says() {
    local what=$1 expected=$2
    shift 2
    said=$("$program" "$@" <examples/surface_ring.cnf 2>&1 >/dev/null)
    printed=$("$program" "$@" <examples/surface_ring.cnf 2>/dev/null)
    [ "$said" = "$expected" ] && [ -z "$printed" ] || { echo "why: of $what it says '$said' and prints '$printed'"; exit 1; }
}
says "no literal" "why: a literal is missing"
for word in "" x -0 -00 +1 1x "1 " 1234567890 --1 -; do
    says "'$word'" "why: the literal is no number" "$word"
done
[ "$("$program" -000000001 <examples/surface_ring.cnf)" = "$("$program" -1 <examples/surface_ring.cnf)" ] ||
    { echo "why: a literal with zeros in front is another"; exit 1; }

"$reference" --why "$program" examples/*.cnf crates/vectors/data/{chain,groups,none,ruby31,cadical-{full,prime,sat,sub,unit,block,elim,ph}}*.cnf || exit 1
"$reference" --why-random "$program" "${1:-1}" "${2:-300}" || exit 1
if command -v picosat >/dev/null 2>&1; then
    "$reference" --why-solver picosat "${1:-1}" 200
else
    echo "why: picosat is not here: it is not asked"
fi
