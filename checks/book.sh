#!/usr/bin/env bash
# Makes the book of definitions anew, and compares. Nothing has to be built. Status 1: it is not up to date.
set -u
top=$(cd "$(dirname "$0")/.." && pwd)
work=$(mktemp -d)
trap 'rm -rf "$work"' EXIT
python3 "$top/docs/book/make.py" "$work" || exit 1
failures=0
for book in book.html book.txt; do
    if ! cmp "$top/docs/book/$book" "$work/$book"; then
        echo "book.sh: FAILED: docs/book/$book is not what docs/book/make.py makes now" >&2
        failures=$((failures + 1))
    fi
done
[ "$failures" -eq 0 ] || exit 1
echo "book.sh: $(grep -c '^  *[0-9]*\. ' "$work/book.txt") chapters, $(wc -l <"$work/book.txt") lines are as made"
