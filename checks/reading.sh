#!/usr/bin/env bash
# Compares the files of definitions that docs/PROMISES.md names for who wants to trust the headline with those that its
# definitions reach. Status 1: they differ, and each difference was printed.
cd "$(dirname "$0")/.." && exec python3 checks/reading.py
