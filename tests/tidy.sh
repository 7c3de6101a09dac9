#!/usr/bin/env bash
# The files of crates/ by the rules of the house that tests/tidy.py knows: every import is used, no line is too wide, every folder is in
# crates.txt. Words: the crates to look at (all if none is given).
cd "$(dirname "$0")/.." || exit 2
if ! command -v python3 >/dev/null 2>&1; then
    echo "tidy: python3 is not here: the files are not looked at"
    exit 0
fi
python3 tests/tidy.py "$@"
