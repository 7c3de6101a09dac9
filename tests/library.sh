#!/usr/bin/env bash
# The library from C and from Rust, on what `rt lib` built in crates/igbezolum_c: the header, the tests of tests/c, also under valgrind, the C
# host that README.md shows, by its own commands and with the output shown there, and the Rust wrapper with its tests and its example.
# What needs a tool that is not here is left out, and a line says so.
cd "$(dirname "$0")/.." || exit 2
PATH=$PATH:${HOME:-/root}/.cargo/bin
archive=target/staticlib/libigbezolum.a
log=target/library.log
[ -r "$archive" ] || { echo "library: no $archive: run ./build first"; exit 2; }

has() {
    command -v "$1" >/dev/null 2>&1 && return
    echo "library: $1 is not here: what needs it is left out"
    return 1
}
# quietly WHAT WORDS...: runs the words; where they fail, all that they said is shown.
quietly() {
    local what=$1
    shift
    "$@" >"$log" 2>&1 && return
    cat "$log"
    echo "library: $what failed"
    exit 1
}
# block N: the Nth indented block of README.md's section for hosts.
block() {
    awk -v n="$1" '/^## /{in_section = /^## From C and Rust/}
        in_section {if (/^    /) {if (!inside) k++; inside = 1; if (k == n) print substr($0, 5)} else inside = 0}' README.md
}
shown=$(block 2)
# the functions of the header
declared=$(grep -o '^[a-z0-9_]* igb_[a-z_]*(' include/igbezolum.h | sed 's/.* \(.*\)(/\1/' | sort)

# The header says that nothing is kept between calls and what the archive asks for.
if has nm; then
    symbols=$(nm "$archive" | awk 'NF >= 2 {print $(NF - 1), $NF}')
    functions=$(sed -n 's/^T \(igb_.*\)/\1/p' <<<"$symbols" | sort)
    [ "$functions" = "$declared" ] || { echo "library: the archive has other functions than the header:" $functions; exit 1; }
    others=$(grep '^[UbBdDC] ' <<<"$symbols" | grep -v '^U mem\(cpy\|set\)$')
    [ -z "$others" ] || { echo "library: the archive has or asks for more than the header says:" $others; exit 1; }
fi

if has gcc; then
    strict=(-Wall -Wextra -Werror -pedantic -Iinclude)
    quietly "the header in C99" gcc -std=c99 "${strict[@]}" -fsyntax-only -x c include/igbezolum.h
    mkdir -p target/c
    if has g++; then
        quietly "compiling a C++ host" g++ "${strict[@]}" -o target/c/forced_cpp -x c++ examples/forced.c -x none "$archive"
        [ "$(target/c/forced_cpp examples/surface_ring.cnf)" = "$shown" ] || { echo "library: a C++ host says something else"; exit 1; }
    fi
    for name in interface close claims why witness shorter groups threads handler stack; do
        quietly "compiling $name.c" gcc -std=c99 -O1 -g "${strict[@]}" -pthread -o "target/c/$name" "tests/c/$name.c" "$archive"
        "target/c/$name" || exit 1
    done
    # not stack, which reads what a thread has left on its stack
    if has valgrind; then
        quietly "interface.c under valgrind" valgrind --error-exitcode=1 --leak-check=full -q target/c/interface
        quietly "close.c under valgrind" valgrind --error-exitcode=1 --leak-check=full -q target/c/close
        quietly "claims.c under valgrind" valgrind --error-exitcode=1 --leak-check=full -q target/c/claims
        quietly "why.c under valgrind" valgrind --error-exitcode=1 --leak-check=full -q target/c/why
        quietly "witness.c under valgrind" valgrind --error-exitcode=1 --leak-check=full -q target/c/witness
        quietly "shorter.c under valgrind" valgrind --error-exitcode=1 --leak-check=full -q target/c/shorter
        quietly "groups.c under valgrind" valgrind --error-exitcode=1 --leak-check=full -q target/c/groups
        quietly "threads.c under valgrind" valgrind --error-exitcode=1 --leak-check=full -q target/c/threads 5
        echo "library: valgrind finds nothing in the tests from C"
    fi
    if has pkg-config; then
        if ! said=$(bash -e -c "$(block 1)" 2>"$log") || [ -z "$shown" ] || [ "$said" != "$shown" ]; then
            cat "$log"
            printf 'library: the commands of README.md say\n%s\nand not what it shows\n' "$said"
            exit 1
        fi
        said=$(dist/forced README.md 2>&1; echo $?; dist/forced examples/no_setup.cnf; echo $?; dist/forced 2>/dev/null; echo $?)
        if [ "$said" != $'forced: refused 3 at byte 0\n1\nno setup is valid\n1\n2' ]; then
            printf 'library: of a text that is no card, a card with no setup and no file the C host says\n%s\n' "$said"
            exit 1
        fi
        if ! said=$(bash -e -c "$(block 3)" 2>"$log") || [ "$said" != "$(block 4)" ]; then
            cat "$log"
            printf 'library: the panel of README.md says\n%s\nand not what it shows\n' "$said"
            exit 1
        fi
        echo "library: the C hosts say what README.md shows"
    fi
fi

if has cargo; then
    cargo_words=(--offline --locked --quiet --manifest-path rust/Cargo.toml)
    export CARGO_TARGET_DIR=$PWD/target/cargo RUSTFLAGS='-D warnings'
    quietly "cargo test" cargo test "${cargo_words[@]}"
    said=$(cargo run "${cargo_words[@]}" --example forced -- examples/surface_ring.cnf) || exit 1
    [ "$said" = "$shown" ] || { printf 'library: the Rust example says\n%s\nand README.md shows something else\n' "$said"; exit 1; }
    passed=$(awk '/^test result: ok/{n += $4} END{print n}' "$log")
    echo "library: $passed tests from Rust pass, and the example says what README.md shows"
fi
