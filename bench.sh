#!/usr/bin/env bash
# Builds the proved static library and prints its speed beside plain Rust: ./bench.sh, or ./bench.sh --quick, or the rows wanted: ./bench.sh kept,
# or the table for README: ./bench.sh --markdown. Fails where a bar is missed, but with --quick. ./bench.sh --help says what the table has.
set -eu
cd "$(dirname "$0")"
./build.sh kaldvemir
{
    grep -m 1 'model name' /proc/cpuinfo | sed 's/.*: //'
    date -u '+%Y-%m-%d %H:%M UTC'
    sed 's/^/load of the last 1, 5 and 15 minutes, running: /; s/ [0-9]*$//' /proc/loadavg
} >&2
cd rust
cargo run --quiet --release --offline -p bench -- "$@"
