#!/usr/bin/env bash
# docs/RULES.md names each definition file of the crates `rules` and `texts`, and has the words that each edit that must fail quotes in its first line.
cd "$(dirname "$0")/.." || exit 2
page=docs/RULES.md
wrong=0 files=0 edits=0
for file in crates/{rules,texts}/specs/*.antt; do
    files=$((files + 1))
    grep -qF "specs/${file##*/}" "$page" || { echo "rules: $page does not name $file"; wrong=1; }
done
for edit in crates/*/must-fail/*.edit; do
    edits=$((edits + 1))
    words=$(sed -n '1s/^# "\([^"]*\)".*/\1/p' "$edit")
    if [ -z "$words" ]; then
        echo "rules: $edit does not open with words of $page in quotes"
        wrong=1
    elif ! grep -qF -- "$words" "$page"; then
        echo "rules: $page does not have the words of $edit: $words"
        wrong=1
    fi
done
[ "$wrong" = 0 ] && echo "rules: $page names $files definition files and has the words of $edits edits"
exit "$wrong"
