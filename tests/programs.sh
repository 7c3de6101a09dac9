#!/usr/bin/env bash
# ./table, ./why, ./witness, ./shorter, ./groups and ./claims as scripts (tools/program), on what `rt` built: statuses, what fails to be read or written, where a refusal
# is and what was expected, links, several files, help, and, with a stand-in for `rt`, when the program is built and what is told meanwhile.
cd "$(dirname "$0")/.." || exit 2
for program in table why show_witness show_shorter show_groups show_claims; do
    [ -x "target/bin/$program" ] || { echo "programs: no target/bin/$program: run .ci/run or ./build first"; exit 2; }
done
touch target/bin/{table,why,show_witness,show_shorter,show_groups,show_claims} # they are taken as they are
room=$(mktemp -d) || exit 2
trap 'rm -rf "$room"' EXIT
failed() {
    echo "programs: $*"
    exit 1
}
ring=examples/surface_ring.cnf
none=examples/no_setup.cnf
card=examples/encoder.groups

# runs WORDS...: sets `status`, `said` (standard output) and `told` (standard error); a run that waits is ended.
runs() {
    timeout 300 "$@" >"$room/out" 2>"$room/err"
    status=$?
    said=$(cat "$room/out") told=$(cat "$room/err")
}
# ends STATUS WORDS...: with the status, and with words on standard error exactly if it is 1 to 4.
ends() {
    local expected=$1
    shift
    runs "$@"
    [ "$status" -eq "$expected" ] || failed "$* ends with $status and not with $expected: $told"
    case $expected in
    [1-4]) [ -n "$told" ] || failed "$* does not say why it ends with $expected" ;;
    *) [ -z "$told" ] || failed "$* says: $told" ;;
    esac
}
# silent: the last run has nothing on standard output.
silent() {
    [ -z "$said" ] || failed "it prints '$said'"
}

# ---- the answer's own number
ends 0 ./table $ring
[ "$said" = "$(target/bin/table <$ring)" ] || failed "./table prints something else than the program"
ends 20 ./table $none
[ "$said" = "$(target/bin/table <$none)" ] || failed "./table prints something else than the program"
ends 21 ./table crates/vectors/data/pigeons_9.cnf
ends 0 ./why $ring 1
[ "$said" = "$(target/bin/why 1 <$ring)" ] || failed "./why prints something else than the program"
ends 22 ./why $ring -1
ends 20 ./why $none 1
ends 21 ./why crates/vectors/data/pigeons_9.cnf 1
ends 0 ./witness $ring 11
[ "$said" = "$(target/bin/show_witness 11 <$ring)" ] || failed "./witness prints something else than the program"
ends 0 ./shorter $ring
[ "$said" = "$(target/bin/show_shorter <$ring)" ] || failed "./shorter prints something else than the program"
# the shorter file of a shorter file is itself
for file in examples/*.cnf; do
    ends 0 ./shorter "$file"
    printf '%s\n' "$said" >"$room/shorter.cnf"
    ends 0 ./shorter "$room/shorter.cnf"
    printf '%s\n' "$said" | cmp -s - "$room/shorter.cnf" || failed "the shorter file of that of $file is another one"
done
ends 2 ./shorter $ring $none
ends 0 ./groups $card
[ "$said" = "$(target/bin/show_groups <$card)" ] || failed "./groups prints something else than the program"
ends 20 ./groups - < <(echo "1 2 2 -1 0 -2 0")
ends 0 ./groups $card $card
[ "$(grep -c "^==> $card <==" <<<"$said")" -eq 2 ] || failed "./groups does not name its files"

# ---- claims of another tool
ends 0 ./claims $ring examples/surface_ring.claims
[ "$said" = "accepted 3 claims" ] || failed "./claims says '$said' of the ring's claims"
sed 's/ 17$/ 1/' examples/surface_ring.claims >"$room/wrong.claims"
ends 1 ./claims $ring "$room/wrong.claims"
[ "$said" = "refused 17 place 129" ] && grep -q "wrong.claims: line 5, column 5: \`1\`: a number at fault" <<<"$told" || failed "./claims says '$said', '$told' of a wrong end"
printf '12 x' >"$room/bad.claims"
ends 1 ./claims $ring "$room/bad.claims"
[ "$said" = "refused 5 place 3" ] && grep -q "bad.claims: line 1, column 4" <<<"$told" || failed "./claims says '$said', '$told' of a malformed token"
printf 'p cnf x' >"$room/bad.cnf"
ends 1 ./claims "$room/bad.cnf" examples/surface_ring.claims
[ "$said" = "refused 3 place 0" ] && grep -q "bad.cnf: line 1, column 1" <<<"$told" || failed "./claims says '$said', '$told' of a malformed card"
ends 3 ./claims $ring "$room/nothing"
silent
for words in "" "$ring" "$ring $ring $ring" "--none $ring"; do
    # shellcheck disable=SC2086
    ends 2 ./claims $words
    silent
done

# ---- used wrongly
for words in "" "1" "--none" "-x" "$ring -0" "$ring 1 x" "$ring 1 $ring" "$ring +1" "$ring 1234567890"; do
    # shellcheck disable=SC2086
    ends 2 ./table $words
    silent
done
for words in "" "$ring" "1" "$ring x" "$ring -0" "$ring $ring" "$ring -" "-x 1" "$ring 1 x"; do
    # shellcheck disable=SC2086
    ends 2 ./why $words
    silent
    # shellcheck disable=SC2086
    ends 2 ./witness $words
    silent
done
[ "$(grep -c '^use: ' <<<"$told")" -eq 1 ] || failed "it does not say how it is used: $told"
for word in "" x -0 +1 1x "1 " 1234567890 -; do
    ends 2 ./why $ring "$word"
    ends 2 ./witness $ring "$word"
done
for words in "" "--none" "-x" "$card -1"; do
    # shellcheck disable=SC2086
    ends 2 ./groups $words
    silent
done
ends 2 tools/program
ends 2 tools/program nothing

# ---- reading fails
for program in "./table" "./why 1" "./witness 1" "./groups"; do
    read -r program number <<<"$program"
    for file in "" . examples "$room/nothing" "$ring/none"; do
        # shellcheck disable=SC2086
        ends 3 "$program" "$file" $number
        silent
        case $told in *"reading failed"*) ;; *) failed "of '$file' it says: $told" ;; esac
    done
    # shellcheck disable=SC2086
    ends 3 "$program" - $number <&-
    silent
    # shellcheck disable=SC2086
    ends 3 "$program" - $number <examples
    silent
done
ends 0 ./table $ring <&-
[ "$said" = "$(target/bin/table <$ring)" ] || failed "with its input closed ./table prints something else of a file"
if [ "$(id -u)" -ne 0 ]; then
    cp $ring "$room/closed.cnf"
    chmod 0 "$room/closed.cnf"
    ends 3 ./table "$room/closed.cnf"
    silent
fi

# ---- writing fails. writing REDIRECTION WORDS...
writing() {
    local to=$1
    shift
    eval 'timeout 300 "$@" 2>"$room/err" '"$to"
    status=$?
    [ $status -eq 3 ] || failed "$* $to ends with $status"
    case $(cat "$room/err") in *"writing failed"*) ;; *) failed "$* $to says: $(cat "$room/err")" ;; esac
}
for to in ">/dev/full" ">&-" ">&- <&-"; do
    writing "$to" ./table $ring
    writing "$to" ./table $ring $none
    writing "$to" ./table --help
    writing "$to" ./why $ring 1
    writing "$to" ./witness $ring 11
    writing "$to" ./groups $card
    writing "$to" ./table README.md
done
timeout 300 ./table $ring 2>&- >"$room/out"
[ $? -eq 0 ] && cmp -s "$room/out" <(target/bin/table <$ring) || failed "with standard error closed it does not answer"
timeout 300 ./table "$room/nothing" 2>&- >"$room/out"
[ $? -eq 3 ] && [ ! -s "$room/out" ] || failed "with standard error closed a failed read is no failed read"
timeout 300 ./table - <&- >&- 2>&-
[ $? -eq 3 ] || failed "with everything closed it does not end with 3"
TMPDIR=$room/nothing runs ./table $ring
[ "$status" -eq 3 ] && [ -z "$said" ] || failed "with no room for a copy it ends with $status"

# ---- the programs themselves tell it too, and print nothing of an input that is not read. direct TOLD REDIRECTION
direct() {
    for words in table "why 1" "show_witness 11" show_groups; do
        eval "timeout 300 target/bin/$words 2>\"\$room/err\" >\"\$room/out\" $2"
        [ ! -s "$room/out" ] && [ "$(cat "$room/err")" = "$1" ] || failed "target/bin/$words $2 prints '$(cat "$room/out")' and says: $(cat "$room/err")"
    done
}
direct "standard input: reading failed" "<examples"
direct "standard input: reading failed" "<&-"
direct "standard output: writing failed" "<$ring >/dev/full"
direct "standard output: writing failed" "<$ring >&-"

# ---- where it is refused. refused N PLACE TEXT TOLD: of this text, as printf has it, ./table says this on standard error
refused() {
    # shellcheck disable=SC2059
    printf "$3" >"$room/text"
    runs ./table "$room/text"
    [ "$status" -eq 1 ] && [ "$said" = "refused $1 place $2" ] || failed "of '$3' it prints '$said' and ends with $status"
    told=${told//"$room/text"/TEXT}
    [ "$told" = "$4" ] && return
    diff <(echo "$4") <(echo "$told")
    failed "of '$3' it says something else"
}
header='the header is missing or malformed: it is `p cnf V C` from the first byte of its line on, V and C of 1 to 9 digits'
number='not a number: a token is an optional - and 1 to 9 digits'
refused 3 0 '' "table: TEXT: line 1, column 1: $header
    
    ^"
refused 3 7 'c only\n' "table: TEXT: line 2, column 1: $header
    
    ^"
refused 3 4 'c a\n p cnf 1 1\n1 0\n' "table: TEXT: line 2, column 1: $header
     p cnf 1 1
    ^"
refused 3 0 '\xef\xbb\xbfp cnf 1 1\n1 0\n' "table: TEXT: line 1, column 1: $header
    ???p cnf 1 1
    ^"
refused 4 0 'p cnf 257 1\n1 0\n' 'table: TEXT: line 1, column 1: the header is over the sizes: at most 256 variables and 1,024 clauses
    p cnf 257 1
    ^'
refused 5 20 'p cnf 2 2\r\n1 2 0\r\n\t x1\t0' "table: TEXT: line 3, column 3: \`x1\`: $number
    $(printf '\t') x1$(printf '\t')0
    $(printf '\t') ^"
refused 5 12 'p cnf 2 1\n1 +2\r\n0\n' "table: TEXT: line 2, column 3: \`+2\`: $number
    1 +2
      ^"
refused 5 10 'p cnf 2 1\n1\x00\x1b[2J\xff 0\n' "table: TEXT: line 2, column 1: \`1??[2J?\`: $number
    1??[2J? 0
    ^"
refused 5 13 'p cnf 1 1\nc \n%%\n' "table: TEXT: line 3, column 1: \`%\`: $number
    %
    ^"
refused 6 14 'p cnf 1 1\n1 0 1 0' 'table: TEXT: line 2, column 5: `1`: behind the last clause: as many clauses as the header says stand before it, and only a % may follow
    1 0 1 0
        ^'
refused 7 13 "p cnf 12 1\\n1 -123456789 0" "table: TEXT: line 2, column 3: \`-123456789\`: a variable above the header's number: a literal's variable is at most the first number of the header
    1 -123456789 0
      ^"
refused 9 12 'p cnf 1 1\n1\n' 'table: TEXT: line 3, column 1: the text ends too early: each clause ends with 0, and there are as many as the header says
    
    ^'
refused 9 11 'p cnf 1 1\n1' 'table: TEXT: line 2, column 2: the text ends too early: each clause ends with 0, and there are as many as the header says
    1
     ^'
# a long line is shown in part, the mark below the same byte
ones=$(printf '1 %.0s' {1..4096})
refused 8 8202 "p cnf 1 1\\n${ones}0" "table: TEXT: line 2, column 8193: \`0\`: the 4,097th entry: literals and closing zeros together are at most 4,096
    ${ones:0:40}0
    $(printf '%40s' '')^"
refused 5 10 "p cnf 1 1\\n${ones// /x} 0" "table: TEXT: line 2, column 1: \`1x1x1x1x1x1x1x1x1x1x1x1x...\`: $number
    $(printf '1x%.0s' {1..36})
    ^"
refused 2 32768 "c%32754s\\np cnf 1 1\\n1 0" 'table: TEXT: line 3, column 3: the text is too long: it has at most 32,768 bytes
    1 0
      ^'
# told_of STATUS PRINTED TOLD WORDS...
told_of() {
    local expected=$1 printed=$2 words=$3
    shift 3
    ends "$expected" "$@"
    [ "$said" = "$printed" ] || failed "$* prints '$said'"
    [ "$told" = "$words" ] || failed "$* says: $told"
}
literal='no literal of the formula: it is not 0, and its variable is at most the number of variables'
told_of 1 "refused 13 place 1" "table: $ring: \`-13\`: $literal" ./table $ring 3 -13 0
told_of 1 "refused 13 place 0" "why: $ring: \`0\`: $literal" ./why $ring 0
told_of 1 "refused 14 place 0" "witness: $ring: \`1\`: not free: a witness is of a variable that the run marks free" ./witness $ring 1
# shellcheck disable=SC2046
told_of 1 "refused 15 place 256" "table: $ring: too many held literals: at most 256" ./table $ring $(seq 257)
told_of 1 "refused 3 place 0" "why: standard input: line 1, column 1: $header
    
    ^" ./why - 1 </dev/null
told_of 1 "refused 3 place 7" "witness: standard input: line 2, column 1: $header
    
    ^" ./witness - 1 < <(echo "c only")
# of a file of groups, whose words are its own where those of a text speak of a header
told_of 1 "refused 16 place 4" "groups: standard input: line 2, column 3: \`17\`: no number of groups or of values: 0 to 128 groups, of 2 to 16 values each
    2 17
      ^" ./groups - < <(printf '2\n2 17\n0\n')
told_of 1 "refused 4 place 2" "groups: standard input: line 1, column 3: \`1025\`: over the sizes: at most 256 values of all groups, and 0 to 1,024 clauses
    0 1025
      ^" ./groups - < <(echo "0 1025")
told_of 1 "refused 7 place 6" "groups: standard input: line 1, column 7: \`-3\`: a value that no group has: a literal's number is at most that of the last group's last value
    1 2 1 -3 0
          ^" ./groups - < <(echo "1 2 1 -3 0")
told_of 1 "refused 11 place 0" "groups: standard input: the list is too long: groups and clauses together have at most 1,024 clauses and 4,096 entries" \
    ./groups - < <(echo "9 16 16 16 16 16 16 16 16 16 0")
# the refusal that README.md shows
printf 'p cnf 4 9\n1 0\n2 0\n3 0\n4 0\n1 2 0\n4 x1 0\n' >"$room/card.cnf"
runs ./table "$room/card.cnf"
[ "${told//"$room/"/}" = "$(awk '/^    table: card.cnf/{on = 1} on && !/^    /{exit} on {print substr($0, 5)}' README.md)" ] ||
    failed "README.md shows another refusal than: $told"
[ "$(cut -d'|' -f1 rust/src/words.txt | tr '\n' ' ')" = "$(seq 17 | tr '\n' ' ')groups 4 groups 6 groups 7 groups 9 groups 11 " ] ||
    failed "rust/src/words.txt has not a line for each refusal"

# ---- what a text may look like, as README.md and include/igbezolum.h have it. reads STATUS PRINTED TEXT...: the first line for each text
reads() {
    local expected=$1 printed=$2 text
    shift 2
    for text in "$@"; do
        # shellcheck disable=SC2059
        printf "$text" >"$room/text"
        runs ./table "$room/text"
        [ "$status" -eq "$expected" ] && [ "${said%%$'\n'*}" = "$printed" ] || failed "of '$text' it prints '$said' and ends with $status"
    done
}
one='answer 0 calls 3 tries 0 forced 2 free 0 open 0'
reads 0 "$one" 'p cnf 2 2\n1 0\n-2 0\n' 'p cnf 2 2\r\n1 0\r\n-2 0\r\n' 'c a\n\n \t\np cnf\t2  2 \n1 0 -2 0' 'p cnf 2 2\n1\nc x\n0 -2\n\n0' \
    'p cnf 02 000000002\n001 1 0 -2 0' 'p cnf 2 2\n1 0 -2 0\n%%\n0\nx +1' 'p cnf 2 3\n1 0 -2 0 1 -1 0'
reads 20 'answer 20 calls 1 tries 0 forced 0 free 0 open 1' 'p cnf 1 1\n0\n'
reads 1 'refused 5 place 10' 'p cnf 2 1\n+1 0\n' 'p cnf 2 1\n-0 0\n' 'p cnf 2 1\n1234567890 0\n' 'p cnf 2 1\np cnf 2 1\n1 0\n'
reads 1 'refused 5 place 11' 'p cnf 2 1\n c x\n1 0\n'
reads 1 'refused 3 place 0' '\xef\xbb\xbfp cnf 1 1\n1 0\n' ' p cnf 1 1\n1 0\n' 'p cnf +1 1\n1 0\n' 'p cnf 1234567890 1\n' 'p dnf 1 1\n1 0\n'
reads 1 'refused 9 place 14' 'p cnf 1 2\n1 0\n'
reads 1 'refused 6 place 14' 'p cnf 1 1\n1 0 1 0\n'
reads 1 'refused 9 place 11' 'p cnf 1 1\n1'
reads 1 'refused 7 place 10' 'p cnf 1 1\n2 0\n'

# ---- standard input, links, folders
ends 0 ./table - 12 -5 <$ring
[ "$said" = "$(target/bin/table 12 -5 <$ring)" ] || failed "of standard input it prints something else"
for program in "table" "why 1" "witness 11"; do
    read -r program number <<<"$program"
    here=$PWD
    mkdir -p "$room/a folder"
    ln -s "$here/$program" "$room/a folder/$program"
    ln -s "a folder/$program" "$room/$program"
    ln -s "$here" "$room/tree"
    # shellcheck disable=SC2086
    expected=$("./$program" $ring $number)
    for way in "$room/a folder/$program" "$room/$program" "$room/tree/$program"; do
        # shellcheck disable=SC2086
        ends 0 "$way" $ring $number
        [ "$said" = "$expected" ] || failed "through $way it prints something else"
    done
    # shellcheck disable=SC2086
    said=$(cd "$room" && PATH=$room:$PATH && "$program" "$here/$ring" $number) && [ "$said" = "$expected" ] || failed "on PATH $program does not answer"
    rm "$room/tree"
done
cp $ring "$room/12"
(cd "$room" && ./table ./12 1 >/dev/null) || failed "a file whose name is a number is not read"

# ---- several files
told_of 20 "==> $ring <==
$(target/bin/table 1 <$ring)
==> standard input <==
$(target/bin/table 1 <$none)" "" ./table $ring - 1 <$none
ends 22 ./why $none $ring -1
ends 1 ./table README.md $none $ring
[ "$(grep -c '^==> ' <<<"$said")" -eq 3 ] || failed "not each of three files has its name"
ends 3 ./table $none "$room/nothing" README.md $ring
[ "$(grep '^==> ' <<<"$said")" = "==> $none <==
==> README.md <==
==> $ring <==" ] || failed "a file that is not read keeps others from being answered"

# ---- help: the statuses, which README.md has too
for program in table why witness; do
    for word in --help -h; do
        ends 0 ./$program $word
        case $said in "use: $program FILE..."*"Exit status:"*) ;; *) failed "$program $word says: $said" ;; esac
    done
done
ends 0 ./shorter --help
case $said in "use: shorter FILE"*"Exit status:"*) ;; *) failed "shorter --help says: $said" ;; esac
rows=$(sed -n 's/^  \([0-9]*\) *\(.*\)/| \1 | \2 |/p' <<<"$said")
[ "$(wc -l <<<"$rows")" -eq 8 ] || failed "help has not eight statuses"
while IFS= read -r row; do
    grep -qxF "$row" README.md || failed "README.md has not the status '$row' of --help"
done <<<"$rows"

# ---- when it is built. A tree with a stand-in for `rt`, which says what `rt` says and copies the program that is there.
tree=$room/tree
mkdir -p "$tree"/crates/{rules,reader,other,table}/src "$tree/rust/src" "$tree/bin"
: >"$tree/crates/table/src/main.rt"
cp -R table why tools "$tree" && cp rust/src/words.txt "$tree/rust/src" && cp target/bin/table "$tree/built"
printf '# a line a crate\nrules:   # the ground\nreader:  rules io\nother:  rules\ntable: reader io # the program\n' >"$tree/crates.txt"
cat >"$tree/bin/rt" <<'END'
#!/bin/sh
echo "$*" >>../../calls
[ "$*" = run ] && [ "${PWD##*/}" = table ] && [ ! -s /dev/stdin ] || exit 2
for crate in rules reader table; do
    echo "fn $crate::some: proved"
    echo "crate $crate: modules loaded=0 checked=1"
    [ $crate != table ] || [ ! -e ../../broken ] || { echo "logic=not-proved"; exit 1; }
    echo "logic=proved functions=1 statements=trusted"
done >&2
mkdir -p out && cp -p ../../built out/table
echo "refused 3 place 0"
END
chmod +x "$tree/bin/rt"
find "$tree" -exec touch -d '1 hour ago' {} +
# built TIMES: with the stand-in ./table answers, and it has been called so many times by then
built() {
    PATH=$tree/bin:$PATH runs "$tree/table" $ring
    [ "$status" -eq 0 ] && [ "$said" = "$(target/bin/table <$ring)" ] || failed "built anew it ends with $status and says: $told"
    [ "$(wc -l <"$tree/calls")" -eq "$1" ] || failed "it was built $(wc -l <"$tree/calls") times and not $1"
}
built 1
[ "$told" = "table: proves and builds table: 3 crates, of which those are proved that have changed; all of them take some minutes
table: rules is proved, 2 of 3 crates left
table: reader is proved, 1 of 3 crates left
table: table is proved, 0 of 3 crates left" ] || failed "while it is built it says: $told"
grep -q '^fn reader::some: proved$' "$tree/target/table.log" || failed "target/table.log has not what rt says"
built 1
[ -z "$told" ] || failed "with nothing changed it says: $told"
sleep 1
touch "$tree/crates/rules/src"
built 2
built 2
sleep 1
touch "$tree/crates.txt"
# without rt, and where it fails, there is no answer of what has changed
PATH=$(dirname "$(command -v bash)"):/usr/bin:/bin
if command -v rt >/dev/null 2>&1; then
    echo "programs: rt stands beside bash: what is said without it is not looked at"
else
    ends 4 "$tree/table" $ring
    silent
    case $told in *"not on PATH"*) ;; *) failed "without rt it says: $told" ;; esac
fi
touch "$tree/broken"
PATH=$tree/bin:$PATH
ends 4 "$tree/table" $ring
silent
case $told in *"$tree/target/table.log says why") ;; *) failed "of what is not proved it says: $told" ;; esac
rm "$tree/broken"
# a program that breaks off, and one that says nothing of a text
printf '#!/bin/sh\nkill -9 $$\n' >"$tree/target/bin/table"
ends 4 "$tree/table" $ring
silent
printf '#!/bin/sh\n[ -s /dev/stdin ] || echo refused 3 place 0\n' >"$tree/target/bin/table"
ends 4 "$tree/table" $ring
silent
echo "programs: statuses, failures, places, links, files, help and building are as they should be"
