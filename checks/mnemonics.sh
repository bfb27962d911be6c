#!/usr/bin/env bash
# Compares the instructions in the comments of the examples with the words that they stand for. Status 1: they differ, and each difference
# was printed.
cd "$(dirname "$0")/.." && exec python3 checks/mnemonics.py
