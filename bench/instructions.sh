#!/usr/bin/env bash
# Instruction counts of fixed workloads by valgrind's callgrind, and how many branches its model of a processor foresees wrongly:
# of the library, then of the plain program, with counts where it has them. A line each with tabs between, as bench/run puts them into RESULTS.md. Only what is done
# below the C function, or the plain one, is counted.
cd "$(dirname "$0")/.." || exit 2
command -v valgrind >/dev/null 2>&1 || { echo "instructions: valgrind is not installed (apt-get install valgrind)" >&2; exit 0; }
bash bench/build.sh >&2 || exit 1

# WHO NAME FUNCTION: instructions and branches foreseen wrongly. Behind the colon stand instructions, branches, wrong ones, ..
count() {
    valgrind --tool=callgrind --branch-sim=yes --callgrind-out-file=/dev/null --collect-atstart=no --toggle-collect="$3" \
        target/bench/bench once "$1" "$2" crates/vectors/data 2>&1 | awk '/Collected :/ {print $4 "\t" $6}'
}
while IFS=: read -r name function; do
    ours=$(count library "$name" "igb_$function")
    # the plain program in the library's form: a reading has no counts
    form=counted
    [ "$function" = run ] || form=plain
    plain=$(count "$form" "$name" "bench::$form::$function")
    printf 'instructions\t%s\t%s\t%s\n' "$name" "$ours" "$plain"
done <<'END'
card 128:run
card 256:run
3-SAT 50, ratio 4.2:run
read most entries:read
END
