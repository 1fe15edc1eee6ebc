#!/usr/bin/env bash
# Proves and builds what the other scripts use: ./build.sh census or ./build.sh console makes the program target/bin/census or target/bin/console,
# and ./build.sh kaldvemir the static library target/staticlib/libkaldvemir.a for callers in C and Rust (crate kaldvemir_c).
set -eu
cd "$(dirname "$0")"
case "${1-}" in
    census | console)
        (cd "crates/$1" && rt run < /dev/null > /dev/null)
        built=crates/$1/out/$1 place=target/bin/$1
        ;;
    kaldvemir)
        (cd crates/kaldvemir_c && rt lib >&2)
        built=crates/kaldvemir_c/out/libkaldvemir_c.a place=target/staticlib/libkaldvemir.a
        ;;
    *)
        echo "usage: ./build.sh census|console|kaldvemir" >&2
        exit 2
        ;;
esac
mkdir -p "$(dirname "$place")"
# What runs or is linked meanwhile keeps the file that it has.
cp "$built" "$place.new"
mv "$place.new" "$place"
