#!/usr/bin/env bash
# The library against the rules written a second time (tests/outside), through its C interface, on what `rt lib` built in crates/igbezolum_c.
# First every fault that the comparison knows is put into what the library gave, and must be noticed; then a short comparison under
# valgrind, and the long one. Words: SEED and how many cases (1 and 60,000 if none are given).
cd "$(dirname "$0")/.." || exit 2
PATH=$PATH:${HOME:-/root}/.cargo/bin
archive=target/staticlib/libigbezolum.a
[ -r "$archive" ] || { echo "outside: no $archive: run ./build first"; exit 2; }
if ! command -v rustc >/dev/null 2>&1; then
    echo "outside: rustc is not here: left out"
    exit 0
fi
outside=target/outside
log=target/outside.log
cases=tests/outside/regressions
rustc --edition 2021 -O -g -D warnings -L target/staticlib -l static=igbezolum -o "$outside" tests/outside/outside.rs || exit 2

faults=0
for fault in $("$outside" --faults); do
    "$outside" --break "$fault" "$cases" 1 300 >"$log" 2>&1
    [ $? -eq 1 ] && grep -q 'differs: ' "$log" || { echo "outside: the fault $fault is not noticed; $log says more"; exit 1; }
    faults=$((faults + 1))
done
[ "$faults" -gt 0 ] || { echo "outside: no fault was tried"; exit 1; }
echo "outside: $faults faults put in, each is noticed"

if command -v valgrind >/dev/null 2>&1; then
    valgrind --error-exitcode=1 --leak-check=full -q "$outside" "$cases" 1 50 >"$log" 2>&1 ||
        { echo "outside: valgrind finds fault; $log says which"; exit 1; }
    echo "outside: valgrind finds nothing"
else
    echo "outside: valgrind is not here: left out"
fi
"$outside" "$cases" "${1:-1}" "${2:-60000}"
