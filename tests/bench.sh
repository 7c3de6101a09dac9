#!/usr/bin/env bash
# The measurement compiles, with every peer that is installed. It is not run here: no test depends on how long something takes.
cd "$(dirname "$0")/.." || exit 2
for tool in rustc gcc g++; do
    command -v "$tool" >/dev/null 2>&1 || { echo "bench: $tool is not here, so it is not compiled"; exit 0; }
done
bash bench/build.sh objects
