#!/usr/bin/env bash
# Compares two census programs, built from two states of the source, on whole censuses: before_after.sh OLD NEW SIZE ..
set -euo pipefail

readonly RUNS=5

usage() {
    cat <<'TEXT'
usage: before_after.sh OLD NEW SIZE ..

Runs two census programs by turns, five times each, on every size given, and prints the median of each one's processor time (user and system, in
seconds) and the ratio of the new to the old. What they print is not kept. Build a program with `./build.sh census`; it is target/bin/census.

  rust/bench/before_after.sh before/census after/census 24 25
TEXT
}

wrong() {
    echo "before_after.sh: $1" >&2
    usage >&2
    exit 2
}

# The processor time of one census in seconds.
seconds() {
    local TIMEFORMAT='%3U %3S' spent
    spent=$( { time "$1" <<< "$2" > /dev/null; } 2>&1 ) || { echo "before_after.sh: $1 failed on size $2: $spent" >&2; exit 1; }
    awk '{ printf "%.3f\n", $1 + $2 }' <<< "$spent"
}

median() {
    printf '%s\n' "$@" | sort -n | sed -n "$(( ($# + 1) / 2 ))p"
}

compare() {
    local size=$1 before=() after=()
    for (( run = 0; run < RUNS; run++ )); do
        before+=("$(seconds "$old" "$size")")
        after+=("$(seconds "$new" "$size")")
    done
    awk -v size="$size" -v a="$(median "${before[@]}")" -v b="$(median "${after[@]}")" \
        'BEGIN { printf "%4d %10.3f %10.3f %7s\n", size, a, b, (a > 0 ? sprintf("%.2f", b / a) : "-") }'
}

if [[ ${1-} == --help ]]; then
    usage
    exit
fi
(( $# >= 3 )) || wrong "it wants two programs and at least one size"
old=$1 new=$2
shift 2
for program in "$old" "$new"; do
    [[ -f $program && -x $program ]] || wrong "$program is no program"
done
for size in "$@"; do
    [[ $size =~ ^([1-9]|[1-4][0-9]|50)$ ]] || wrong "$size is no size from 1 to 50"
done
# A name without a slash would be looked for in the path.
old=$(realpath "$old") new=$(realpath "$new")
printf '%4s %10s %10s %7s\n' size 'old, s' 'new, s' ratio
for size in "$@"; do
    compare "$size"
done
