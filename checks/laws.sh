#!/usr/bin/env bash
# Compares the laws in docs/PROMISES.md with the comments above them in the code. Status 1: they differ, and each difference was printed.
cd "$(dirname "$0")/.." && exec python3 checks/laws.py
