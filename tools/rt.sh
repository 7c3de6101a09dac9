# shellcheck shell=bash
# What ./build and tools/program share: proving and building by `rt` what is not there yet or is older than the crates. It is read by them
# and not run; the folder is the top of the tree.

# is_fresh FILE: it is there, and none of the crates has changed since. What `rt` puts into a crate's out/ is no change.
is_fresh() {
    [ -e "$1" ] && [ -z "$(find crates/*/* crates.txt -name out -prune -o -newer "$1" -print -quit)" ]
}
# crates_of NAME...: how many crates of crates.txt these need, themselves too. The file goes from the ground up: a crate names earlier ones.
crates_of() {
    awk -v names="$*" '
        { sub(/#.*/, ""); sub(/ staticlib/, ""); sub(/:/, " ") }
        NF { lines[++n] = $0 }
        END {
            m = split(names, words, " ")
            for (k = 1; k <= m; k++) needed[words[k]] = 1
            for (i = n; i >= 1; i--) {
                m = split(lines[i], words, " ")
                if (!(words[1] in needed)) continue
                count++
                for (k = 2; k <= m; k++) needed[words[k]] = 1
            }
            print count + 0
        }' crates.txt
}
# told TELLER LEFT ALL CRATE: a line on standard error for each crate that is proved; on a terminal each stands over the last.
told() {
    local line="$1: $4 is proved, $2 of $3 crates left"
    if [ -t 2 ]; then printf '\r\033[K%s' "$line" >&2; else printf '%s\n' "$line" >&2; fi
}
# put_built NAME: what `rt` has built in a crate's out/ goes to target/: a program to target/bin/, the archive of NAME_c to target/staticlib/libNAME.a.
# A new file takes the place of the old one, which may be in use.
put_built() {
    local made=crates/$1/out/$1 to=target/bin/$1
    [ -e "crates/$1/src/main.rt" ] || made=crates/$1/out/lib$1.a to=target/staticlib/lib${1%_c}.a
    mkdir -p "${to%/*}" && cp "$made" "$to.new" && mv -f "$to.new" "$to"
}
# made NAME: proves and builds a crate: by `rt run` a program, which it runs with no input, by `rt lib` a static library.
made() {
    if [ -e "crates/$1/src/main.rt" ]; then
        (cd "crates/$1" && rt run </dev/null >/dev/null) && put_built "$1"
    else
        (cd "crates/$1" && rt lib) && put_built "$1"
    fi
}
# proved TELLER NAME...: proves and builds these crates. What `rt` says goes to target/TELLER.log; whether it has done it is answered.
proved() {
    local teller=$1 name all left line status crate=
    shift
    if ! command -v rt >/dev/null 2>&1; then
        echo "$teller: $* is to be built, and the command 'rt' of the Rattle toolchain is not on PATH" >&2
        return 1
    fi
    all=$(crates_of "$@")
    left=$all
    mkdir -p target
    : >"target/$teller.log" || return 1
    echo "$teller: proves and builds $*: $all crates, of which those are proved that have changed; all of them take some minutes" >&2
    { for name in "$@"; do made "$name" || exit 1; done; } 2>&1 | while IFS= read -r line; do
        printf '%s\n' "$line" >>"target/$teller.log"
        case $line in
        "crate "*": modules loaded="*)
            crate=${line#crate }
            crate=${crate%%:*}
            ;;
        "logic=proved "*)
            [ -n "$crate" ] || continue
            left=$((left - 1))
            told "$teller" "$left" "$all" "$crate"
            crate=
            ;;
        esac
    done
    status=${PIPESTATUS[0]}
    [ ! -t 2 ] || echo >&2
    [ "$status" -eq 0 ] && return
    echo "$teller: $* was not built; $PWD/target/$teller.log says why" >&2
    return 1
}
