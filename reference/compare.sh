#!/bin/sh
# compare.sh FOLDER: runs every list of calls (X.calls, expecting X.answers)
# and every job file (X.job, expecting X.text) under FOLDER and tells the
# differences.  Ends with 0 when all agree.
here=$(cd "$(dirname "$0")" && pwd)
[ -d "$1" ] || { echo "usage: compare.sh FOLDER" >&2; exit 2; }
work=$(mktemp -d) || exit 2
trap 'rm -rf "$work"' EXIT
agree=0 differ=0

check() { # check PROGRAM GIVEN EXPECTED
    python3 "$here/$1" <"$2" >"$work/printed" 2>"$work/errors"
    if [ ! -s "$work/errors" ] && cmp -s "$work/printed" "$3"; then
        agree=$((agree + 1))
    else
        differ=$((differ + 1))
        echo "differs: $2 (expected <, printed >)"
        diff "$3" "$work/printed"
        cat "$work/errors"
    fi
}

find "$1" \( -name '*.calls' -o -name '*.job' \) | sort >"$work/list"
while IFS= read -r given; do
    case $given in
        *.calls) check perform.py "$given" "${given%.calls}.answers" ;;
        *.job) check settle.py "$given" "${given%.job}.text" ;;
    esac
done <"$work/list"
echo "$agree agree, $differ differ"
[ "$agree" -gt 0 ] && [ "$differ" -eq 0 ]
