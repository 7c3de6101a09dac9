#!/usr/bin/env bash
# The runs that README.md shows are the ones that the programs make.
cd "$(dirname "$0")/.." || exit 2
# block N: the Nth indented block of README.md that begins with the word `answer`.
block() {
    awk -v n="$1" '/^    /{if (!inside && /^    answer /) k++; if (k == n && (inside || /^    answer /)) print substr($0, 5); inside = 1; next} {inside = 0; if (k == n) exit}' README.md
}
# is_shown N WORDS...: what the words print is block N
is_shown() {
    local shown
    shown=$(block "$1")
    shift
    [ "$("$@")" = "$shown" ] && return
    echo "readme: README.md shows something else than $* prints"
    exit 1
}
is_shown 1 ./table examples/surface_ring.cnf
is_shown 2 ./why examples/surface_ring.cnf 1
is_shown 3 ./groups examples/encoder.groups
# what stands behind the words "prints them" is what ./witness prints, with the words shown before
asked=$(awk '/^    \.\/witness /{print substr($0, 5); exit}' README.md)
pair=$(awk '/^prints them/{on = 1} on && /^    /{print substr($0, 5); seen = 1} seen && !/^    /{exit}' README.md)
if [ -z "$pair" ] || [ "$($asked)" != "$pair" ]; then
    echo "readme: README.md shows another pair than $asked prints"
    exit 1
fi
# what stands behind the words "writes this" is what ./shorter prints, with the words shown before
asked=$(awk '/^    \.\/shorter /{print substr($0, 5); exit}' README.md)
file=$(awk '/^writes this/{on = 1} on && /^    /{print substr($0, 5); seen = 1} seen && !/^    /{exit}' README.md)
if [ -z "$file" ] || [ "$($asked)" != "$file" ]; then
    echo "readme: README.md shows another file than $asked writes"
    exit 1
fi
# the bytes and clauses of the table of cards are those of the files
while IFS='|' read -r _ card bytes short clauses left _; do
    card=${card//[\` ]/}
    made=$(./shorter "$card")
    left=${left%%,*}
    header=$(grep -m1 '^p' "$card") shorter_header=${made%%$'\n'*}
    if [ "$(wc -c <"$card")" -ne "$bytes" ] || [ "$(printf '%s\n' "$made" | wc -c)" -ne "$short" ] ||
        [ "${header##* }" -ne "$clauses" ] || [ "${shorter_header##* }" -ne "$left" ]; then
        echo "readme: README.md has other sizes of $card and its shorter file"
        exit 1
    fi
done < <(grep '^| `examples/.*cnf` | [0-9]' README.md)
# the claims that are shown are the file's, and what stands below them is what ./claims says of it
shown=$(awk '/^    12 1 2 -3/{on = 1} on && !/^    /{exit} on{print substr($0, 5)}' README.md)
[ -n "$shown" ] && [ "$shown" = "$(cat examples/surface_ring.claims)" ] || { echo "readme: README.md shows other claims than examples/surface_ring.claims"; exit 1; }
[ "$(./claims examples/surface_ring.cnf examples/surface_ring.claims)" = "$(awk '/^    accepted /{print substr($0, 5); exit}' README.md)" ] ||
    { echo "readme: ./claims says something else than README.md shows"; exit 1; }
# what stands behind the words "finds no other difference" is what the diff of two tables prints, with the words shown before
asked=$(awk '/^    diff /{print substr($0, 5); exit}' README.md)
shown=$(awk '/^finds no other difference/{on = 1} on && /^    /{print substr($0, 5); seen = 1} seen && !/^    /{exit}' README.md)
if [ -z "$asked" ] || [ -z "$shown" ] || [ "$(eval "$asked")" != "$shown" ]; then
    echo "readme: README.md shows another difference than $asked prints"
    exit 1
fi
# and it is of hints alone
if printf '%s\n' "$shown" | grep '^[<>]' | grep -qv ' held by clause [0-9]*$'; then
    echo "readme: two orders of one card differ in more than hints"
    exit 1
fi
echo "readme: the runs are as shown"
