#!/usr/bin/env bash
# Compiles the measurement into target/bench/: the program `bench`, and the peers that are installed (Debian's libcadical-dev and
# picosat). With the word `objects` nothing is linked, so that the library need not be there. Says which peers it found.
cd "$(dirname "$0")/.." || exit 2
mkdir -p target/bench
out=target/bench
src=bench/src
cfg=(--check-cfg 'cfg(cadical)' --check-cfg 'cfg(picosat)')
found=""

gcc -O2 -Wall -Wextra -Werror -Iinclude -c "$src/stack.c" -o "$out/stack.o" || exit 1
gcc -O2 -std=c99 -Wall -Wextra -Werror -Iinclude -c "$src/one_try.c" -o "$out/one_try.o" || exit 1
link="$out/stack.o"
if [ -f /usr/include/cadical.hpp ]; then
    g++ -O2 -Wall -Wextra -Werror -c "$src/cadical_loop.cpp" -o "$out/cadical_loop.o" || exit 1
    link+=" $out/cadical_loop.o -lcadical -lstdc++"
    cfg+=(--cfg cadical)
    found+=", CaDiCaL"
else
    found+=", no CaDiCaL (apt-get install libcadical-dev)"
fi
if [ -f /usr/include/picosat/picosat.h ]; then
    gcc -O2 -Wall -Wextra -Werror -c "$src/picosat_loop.c" -o "$out/picosat_loop.o" || exit 1
    link+=" $out/picosat_loop.o -l:libpicosat.a"
    cfg+=(--cfg picosat)
    found+=", PicoSAT"
else
    found+=", no PicoSAT (apt-get install picosat)"
fi

rust=(rustc --edition 2021 -C opt-level=3 -D warnings "${cfg[@]}" --crate-name bench "$src/main.rs")
if [ "${1:-}" = objects ]; then
    "${rust[@]}" --emit obj -o "$out/bench.o" || exit 1
else
    library=target/staticlib/libigbezolum.a
    [ -f "$library" ] || { echo "bench: no $library: run ./build first"; exit 2; }
    "${rust[@]}" -C "link-args=$link $library" -o "$out/bench" || exit 1
fi
echo "bench: compiled with plain Rust$found"
