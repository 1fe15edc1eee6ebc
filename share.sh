#!/usr/bin/env bash
# A whole shared census on this machine, from nothing: ./share.sh --size 12 --shares 4 --workers 2
# Installs and builds what is missing, opens a census in a file of SQLite, works it to the end, prints the report and where the table is.
# --db FILE names the file; a census that is there already is gone on with.
set -eu
usage() {
    echo "usage: ./share.sh --size N --shares K --workers W [--db FILE]" >&2
    exit 2
}
here=$(dirname "$(readlink -f "$0")")
size="" shares="" workers="" db=""
while [ $# -gt 1 ]; do
    case "$1" in
        --size) size=$2 ;;
        --shares) shares=$2 ;;
        --workers) workers=$2 ;;
        --db) db=$2 ;;
        *) usage ;;
    esac
    shift 2
done
[ $# -eq 0 ] || usage
for number in "$size" "$shares" "$workers"; do
    case "$number" in "" | *[!0-9]*) usage ;; esac
done
# Sizes and shares out of range are found out before the minutes of proving.
[ "$size" -ge 1 ] && [ "$size" -le 50 ] || { echo "share.sh: the size is to be 1 to 50" >&2; exit 2; }
[ "$shares" -ge 1 ] && [ "$shares" -le 32 ] || { echo "share.sh: the number of shares is to be 1 to 32" >&2; exit 2; }
[ "$workers" -ge 1 ] || usage
db=${db:-kaldvemir-$size.db}
case "$db" in
    *://*) ;;
    /*) ;;
    *) db=$PWD/$db ;;
esac
"$here/python/setup.sh" > /dev/null
opened=$("$here/kaldvemir" open --db "$db" --size "$size" --shares "$shares" --resume)
echo "$opened"
census=$(echo "$opened" | sed -n 's/^census \([0-9]*\) in .*/\1/p')
"$here/kaldvemir" work --db "$db" --census "$census" --workers "$workers"
"$here/kaldvemir" audit --db "$db" --census "$census"
echo "The table is kaldvemir_rows_$census in $db. Print it with:"
echo "  $here/kaldvemir rows --db '$db' --census $census"
