#!/usr/bin/env bash
# docs/crates.svg is what docs/picture draws from crates.txt.
cd "$(dirname "$0")/.." || exit 2
if ! command -v python3 >/dev/null 2>&1; then
    echo "picture: python3 is not here: docs/crates.svg is not compared"
    exit 0
fi
python3 docs/picture --check
