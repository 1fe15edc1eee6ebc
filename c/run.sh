#!/usr/bin/env bash
# Builds the proved static library and the C program, and runs it. The archive needs no other library to be linked with it.
set -eu
cd "$(dirname "$0")/.."
./build.sh kaldvemir
cc -std=c11 -Wall -Wextra -Werror -O2 -o target/example c/example.c target/staticlib/libkaldvemir.a
target/example
