#!/usr/bin/env bash
# Draws the pictures anew from the texts of the examples and from crates.txt, and compares. Status 1: one differs.
set -u
top=$(cd "$(dirname "$0")/.." && pwd)
work=$(mktemp -d)
trap 'rm -rf "$work"' EXIT
python3 "$top/docs/pictures/draw.py" "$work" || exit 1
failures=0
for picture in chain lanes crates; do
    if ! cmp "$top/docs/pictures/$picture.svg" "$work/$picture.svg"; then
        echo "pictures.sh: FAILED: $picture.svg is not what docs/pictures/draw.py draws now" >&2
        failures=$((failures + 1))
    fi
done
[ "$failures" -eq 0 ] || exit 1
echo "pictures.sh: 3 pictures are as drawn"
