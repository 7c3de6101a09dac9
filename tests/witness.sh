#!/usr/bin/env bash
# The program `show_witness` against the rules written a second time (tests/reference), on what `rt` built: the examples,
# formulas of crates/vectors, and texts at random; each pair is looked at too: two models that differ on the variable. And what it says of a
# word that is no number. Words: SEED and how many texts (1 and 300 if none are given).
cd "$(dirname "$0")/.." || exit 2
program=target/bin/show_witness
[ -x "$program" ] || { echo "witness: no $program: run .ci/run or ./build first"; exit 2; }
reference=target/reference
rustc -O -D warnings -o "$reference" tests/reference/reference.rs || exit 2

# says WHAT EXPECTED WORDS...: on standard error, with nothing on standard output
says() {
    local what=$1 expected=$2
    shift 2
    said=$("$program" "$@" <examples/surface_ring.cnf 2>&1 >/dev/null)
    printed=$("$program" "$@" <examples/surface_ring.cnf 2>/dev/null)
    [ "$said" = "$expected" ] && [ -z "$printed" ] || { echo "witness: of $what it says '$said' and prints '$printed'"; exit 1; }
}
says "no variable" "witness: a variable is missing"
for word in "" x -0 +1 1x "1 " 1234567890 -; do
    says "'$word'" "witness: the variable is no number" "$word"
done
for word in 0 -3 1 13 999999999; do
    [ "$("$program" "$word" <examples/surface_ring.cnf)" = "refused 14 place 0" ] || { echo "witness: of '$word', which is not free, it says otherwise"; exit 1; }
done

"$reference" --witness "$program" examples/*.cnf crates/vectors/data/{chain,groups,none,ruby31,cadical-{full,prime,sat,sub,unit,block,elim,ph}}*.cnf || exit 1
"$reference" --witness-random "$program" "${1:-1}" "${2:-300}"
