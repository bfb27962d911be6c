#!/usr/bin/env bash
# Prints how many bytes of script the program reads and runs in a second, as ./tenex builds it: POKE lines
# over all pages of a job, as many as fit into the longest script. The seconds are of processor time and
# leave out the start of the program. It prints the most memory that the long run had at once, and that of
# an empty script: the two differ by nothing that grows with the script.
set -eu
source "$(dirname "$0")/program.inc"

# The most kilobytes that a run of a script has in memory at once.
kilobytes() {
    python3 - "$program" "$1" <<'PYTHON'
import resource, subprocess, sys
program, script = sys.argv[1:]
with open(script) as text:
    subprocess.run([program, "run"], stdin=text, stdout=subprocess.DEVNULL, check=True)
print(resource.getrusage(resource.RUSAGE_CHILDREN).ru_maxrss)
PYTHON
}

: >empty.script
awk 'BEGIN {
    line = "LOGIN 0 SMITH\n"
    for (n = 0; bytes + length(line) <= 16777216; n++) {
        printf "%s", line
        bytes += length(line)
        line = sprintf("POKE 0 %o %o\n", 16 + n * 37 % 262128, n * 94906 % 68719476736)
    }
}' >pokes.script
bytes=$(wc -c <pokes.script)

taken=$(($(milliseconds pokes.script) - $(milliseconds empty.script)))
[ "$(tail -n 1 tenex.record)" = 'E 0 0' ]
echo "$(wc -l <pokes.script) lines, $bytes bytes: $taken ms, $((bytes / (taken > 0 ? taken : 1))) thousand bytes a second"
echo "memory: $(kilobytes pokes.script) kB, of an empty script $(kilobytes empty.script) kB"
