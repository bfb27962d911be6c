#!/usr/bin/env bash
# Replays the record of each example with the built program, and compares what it writes with the example's transcript; looks whether
# the image of the files that it leaves is one; then rows of records and words, and three records cut and changed at each byte.
# Status 1: something differs, and each difference was printed.
cd "$(dirname "$0")/.." && { ./tenex build || exit 1; } && exec python3 checks/replay.py build/tenex
