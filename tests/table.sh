#!/usr/bin/env bash
# The table program against the rules written a second time (tests/reference), on what `rt` built: the examples, the
# formulas of crates/vectors, texts as long as a text may be and one byte longer, words that it is started with, and texts at random,
# with and without literals held. Words: SEED and how many texts (1 and 2,000 if none are given).
cd "$(dirname "$0")/.." || exit 2
program=target/bin/table
[ -x "$program" ] || { echo "table: no $program: run .ci/run or ./build first"; exit 2; }
reference=target/reference
rustc -O -D warnings -o "$reference" tests/reference/reference.rs || exit 2

# padded NAME BYTES TEXT TABLE: the text behind a comment line that makes it so many bytes long, and the table that it must get
padded() {
    printf 'c%*s\n%s' $(($2 - 2 - ${#3})) '' "$3" >"target/$1.cnf"
    "$program" <"target/$1.cnf" | diff <(echo "$4") - || { echo "table: $1.cnf gets another table"; exit 1; }
}
# the last byte closes the clause: the program reads all of 32,768 bytes
padded text_32768 32768 $'p cnf 1 1\n1 0' $'answer 0 calls 2 tries 0 forced 1 free 0 open 0\n1 forced on held by clause 1'
# one byte more, which the formula needs, and which it does not need: the program sees that there is one
padded text_32769 32769 $'p cnf 1 1\n1 0' 'refused 2 place 32768'
padded text_32769_lf 32769 $'p cnf 1 1\n1 0\n' 'refused 2 place 32768'

# with TABLE WORD...: the table that x1 or x2 must get with these words; where it is none, the program says why
printf 'p cnf 2 1\n1 2 0\n' >target/either.cnf
with() {
    local table=$1 said
    shift
    said=$("$program" "$@" <target/either.cnf 2>target/table.err)
    [ "$said" = "$table" ] || { echo "table: with '$*' it prints another table: $said"; exit 1; }
    [ -n "$table" ] || [ -s target/table.err ] || { echo "table: with '$*' it does not say why"; exit 1; }
}
on=($(yes 1 | head -256))
with $'answer 0 calls 2 tries 1 forced 0 free 2 open 0\n1 free\n2 free'
with $'answer 0 calls 3 tries 0 forced 2 free 0 open 0\n1 forced off held by clause 2\n2 forced on held by clause 1' -1
with 'answer 20 calls 1 tries 0 forced 0 free 0 open 2' 2 -2
with $'answer 0 calls 2 tries 1 forced 1 free 1 open 0\n1 forced on held by clause 1\n2 free' "${on[@]}"
with 'refused 15 place 256' "${on[@]}" 1
with 'refused 13 place 255' "${on[@]:1}" 3
with 'refused 13 place 1' 2 0
with 'refused 13 place 0' -999999999
for word in 1000000000 -0 +1 1x x; do
    with '' 1 "$word"
done

"$reference" --against "$program" examples/*.cnf crates/vectors/data/*.cnf target/text_*.cnf &&
    "$reference" --random "$program" "${1:-1}" "${2:-2000}"
