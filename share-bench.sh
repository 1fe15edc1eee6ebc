#!/usr/bin/env bash
# The speed of the shared census beside the database's own: ./share-bench.sh [--size 22] [--repeats 3]
set -eu
cd "$(dirname "$0")"
python=$(python/setup.sh --tests)
python/build.sh
exec "$python" python/bench.py "$@"
