#!/usr/bin/env bash
# Installs what the package kaldvemir needs and is missing, and prints the Python interpreter that has it: python/setup.sh [--tests]
# KALDVEMIR_PYTHON names another interpreter. With --tests also what the tests need: pytest, a PostgreSQL server, GAP.
set -eu
modules="click rich networkx numpy psycopg"
packages="gcc libc6-dev python3 python3-click python3-rich python3-networkx python3-numpy python3-psycopg libpq5"
programs="cc"
if [ "${1:-}" = --tests ]; then
    modules="$modules pytest"
    packages="$packages python3-pytest postgresql postgresql-client gap-core"
    programs="$programs gap psql"
fi

# The first interpreter that has all modules.
found() {
    local python program
    for program in $programs; do
        command -v "$program" > /dev/null || return 1
    done
    for python in ${KALDVEMIR_PYTHON:-python3 /usr/bin/python3}; do
        if "$python" -c '
import importlib.util, sys
sys.exit(sys.version_info < (3, 11) or any(importlib.util.find_spec(name) is None for name in sys.argv[1:]))' $modules 2> /dev/null; then
            command -v "$python"
            return 0
        fi
    done
    return 1
}

if ! found; then
    root=""
    [ "$(id -u)" = 0 ] || root=sudo
    if ! command -v apt-get > /dev/null || { [ -n "$root" ] && ! command -v sudo > /dev/null; }; then
        echo "kaldvemir: needs Python 3.11 with $modules, and $programs: install them (pip install '$(dirname "$0")[postgresql,tests]')" >&2
        exit 1
    fi
    echo "kaldvemir: installing Debian's packages $packages" >&2
    {
        $root apt-get update -q
        $root env DEBIAN_FRONTEND=noninteractive apt-get install -q -y --no-install-recommends $packages
    } >&2
    found || { echo "kaldvemir: no Python 3.11 with $modules was found; name one in KALDVEMIR_PYTHON" >&2; exit 1; }
fi
