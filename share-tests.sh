#!/usr/bin/env bash
# The tests of the Python package and of the shared census, with a PostgreSQL server of their own and GAP: ./share-tests.sh
# What is missing is installed and built first. Arguments are pytest's: ./share-tests.sh tests/test_faults.py
set -eu
cd "$(dirname "$0")"
python=$(python/setup.sh --tests)
python/build.sh
if [ ! -x target/bin/census ]; then
    echo "proving and building the census program, with which the table is compared: some minutes" >&2
    ./build.sh census 2>&1 | grep --line-buffered '^rt: ' >&2 || true
fi
cd python
exec "$python" -m pytest "$@"
