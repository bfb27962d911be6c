#!/usr/bin/env bash
# Runs each command of view/ on the texts of each example, and compares what it shows with them; and tries view/record.html in Chromium,
# where that is installed. Nothing has to be built. Where a folder is given, screenshots of the page are written there.
# Status 1: something does not fit, and each was printed.
set -u
cd "$(dirname "$0")/.." || exit 1
failures=0
python3 checks/view.py || failures=1
python3 checks/record_page.py "$@" || failures=1
exit $failures
