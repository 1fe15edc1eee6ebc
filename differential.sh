#!/usr/bin/env bash
# Compares the library with a reference in plain Rust on random inputs: ./differential.sh, ./differential.sh --full, ./differential.sh --seed 7
# The library is proved and built first. Fails at the first difference, and where some refusal was never met.
set -eu
cd "$(dirname "$0")"
./build.sh kaldvemir
cd rust
exec env -u KALDVEMIR_LIB_DIR cargo run --release --offline --quiet -p differential -- "$@"
