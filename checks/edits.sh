#!/usr/bin/env bash
# Looks whether each must-fail edit applies: each of its old texts stands once in its file. Status 1: one doesn't, and each that doesn't was
# printed.
cd "$(dirname "$0")/.." && exec python3 checks/edits.py
