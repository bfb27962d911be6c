#!/usr/bin/env bash
# Compares the documents with the repository: links, crates, examples. Status 1: something does not fit, and each was printed.
cd "$(dirname "$0")/.." && exec python3 checks/documents.py
