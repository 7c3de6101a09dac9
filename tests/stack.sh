#!/bin/sh
# The deepest search on a small stack: 256 variables and no clause, so a try for each, one below the other. Nothing proves the stack,
# so it is run: target/bin/search_deep (as the gate leaves it there) with 512 KB must write what crates/search_deep/stdout has.
# Then half of it again and again, to say how much is really needed. The same search stands deepest where target/bin/why (from
# `./build`) asks why a switch is forced. Prints a line for each; exit status 0 if 512 KB are enough.
cd "$(dirname "$0")/.." || exit 2
program=target/bin/search_deep
[ -x "$program" ] || { echo "stack: no $program: run .ci/run or ./build first"; exit 2; }
enough() { [ "$( (ulimit -s "$1" && "$program"; true) 2>/dev/null)" = "$(cat crates/search_deep/stdout)" ]; }
enough 512 || { echo "stack: 512 KB are too small"; exit 1; }
least=512
for kb in 448 384 320 256 224 192 176 160 152 144 136 128 120 112 104 96 88 80 64 48 32; do
    enough "$kb" && least=$kb || break
done
echo "stack: the deepest search runs on 512 KB; the least that was enough: $least KB"

why=target/bin/why
[ -x "$why" ] || { echo "stack: no $why: run .ci/run or ./build first"; exit 2; }
explains() { (ulimit -s "$1" && "$why" 256 <crates/vectors/data/none_256.cnf; true) 2>/dev/null | grep -q '^answer 22 calls 2 tries 511 kept 0$'; }
explains 512 || { echo "stack: 512 KB are too small for why"; exit 1; }
least=512
for kb in 448 384 352 320 288 256 224 192; do
    explains "$kb" && least=$kb || break
done
echo "stack: the deepest why runs on 512 KB; the least that was enough: $least KB"
