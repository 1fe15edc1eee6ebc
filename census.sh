#!/usr/bin/env bash
# Proves and builds the census program, then prints the census of the size given: ./census.sh 6
# Without a size: how many diagrams the sizes 1 to 9 have, and how many of them are kept.
set -eu
cd "$(dirname "$0")"
./build.sh census
if [ $# -eq 0 ]; then
    target/bin/census < /dev/null
else
    printf '%s\n' "$1" | target/bin/census
fi
