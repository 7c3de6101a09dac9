#!/usr/bin/env bash
# How long the slowest try takes that we know: include/igbezolum.h has the figure.
cd "$(dirname "$0")/.." || exit 2
library=target/staticlib/libigbezolum.a
[ -f "$library" ] || { echo "one try: no $library: run ./build first"; exit 2; }
mkdir -p target/bench
gcc -O2 -std=c99 -Wall -Wextra -Werror -Iinclude -o target/bench/one_try bench/src/one_try.c "$library" && target/bench/one_try
