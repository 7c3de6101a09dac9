#!/usr/bin/env bash
# Makes what the program `vectors` must print once more, with the rules written a second time (tests/reference), and compares. Where
# picosat is installed (Debian's package of that name), it must find the same literals forced and the same variables free.
cd "$(dirname "$0")/.." || exit 2
mkdir -p target
reference=target/reference
rustc -O -D warnings -o "$reference" tests/reference/reference.rs || exit 2
mapfile -t names <crates/vectors/args
files=("${names[@]/#/crates/vectors/data/}")
"$reference" --named "${files[@]}" | diff - crates/vectors/stdout || { echo "vectors: crates/vectors/stdout is another"; exit 1; }
echo "vectors: ${#names[@]} tables as they are stored"
if command -v picosat >/dev/null 2>&1; then
    "$reference" --solver picosat "${files[@]}"
else
    echo "vectors: picosat is not here: it is not asked"
fi
