#!/usr/bin/env bash
# Prints how long the assembler takes over the longest texts, 1,048,576 bytes, in milliseconds of processor time, as ./tenex builds it:
# one with a symbol and a use of another on each line, and one with as many words as such a text can have.
set -eu
source "$(dirname "$0")/program.inc"

awk 'BEGIN {
    for (n = 0; bytes + length(line) <= 1048576; n++) {
        printf "%s", line
        bytes += length(line)
        line = sprintf("S%05d: MOVE 1,S%05d(2) ; a word\n", n, n * 7919 % (n + 1))
    }
}' >symbols.mac
awk 'BEGIN { for (n = 0; n < 262144; n++) print "LSH" }' >words.mac

for text in symbols words; do
    TIMEFORMAT='%U %S'
    taken=$({ time "$program" asm 0 <$text.mac >$text.script; } 2>&1 | awk '{ printf "%d\n", ($1 + $2) * 1000 }')
    echo "$text: $(wc -l <$text.mac) lines, $(wc -c <$text.mac) bytes, $(wc -l <$text.script) words: $taken ms"
done
