#!/usr/bin/env bash
# Links the proved static library into the shared object that the package kaldvemir calls: python/build.sh
# The library is proved and built first where it is not there or older than its source, which takes some twenty minutes.
set -eu
cd "$(dirname "$0")/.."
archive=target/staticlib/libkaldvemir.a
object=python/kaldvemir/libkaldvemir.so

# The object carries the sum of the source that it was built from: one of another version must not go unnoticed.
source=$({ cat crates.txt c/kaldvemir.h && find crates -name '*.rt' -not -path '*/out/*' -print0 | LC_ALL=C sort -z | xargs -0 cat; } | sha256sum | cut -d ' ' -f 1)
if [ -f "$object" ] && [ "$(cat "$object.source" 2> /dev/null)" = "$source" ]; then
    exit 0
fi
need() {
    command -v "$1" > /dev/null || { echo "python/build.sh: $1 is missing: $2" >&2; exit 1; }
}
need cc "install a C compiler (Debian: apt-get install gcc libc6-dev)"
if [ ! -f "$archive" ] || [ -n "$(find crates.txt crates -newer "$archive" \( -name crates.txt -o -name '*.rt' \) -not -path '*/out/*' -print -quit)" ]; then
    need rt "the Rattle toolchain has to be installed (docs/TOOLCHAIN.md)"
    echo "proving and building the library, a line a crate: some twenty minutes the first time" >&2
    ./build.sh kaldvemir 2>&1 | grep --line-buffered '^rt: ' >&2 || true
    [ -f "$archive" ] || { echo "python/build.sh: the library was not built: run ./build.sh kaldvemir to see why" >&2; exit 1; }
fi
# A worker that is running keeps the object that it has.
cc -shared -o "$object.new" -Wl,--whole-archive "$archive" -Wl,--no-whole-archive -Wl,-soname,libkaldvemir.so
mv "$object.new" "$object"
echo "$source" > "$object.source"
