#!/usr/bin/env bash
# Prints how many machine instructions an interrupt that is taken and its DEBRK take together, as ./tenex builds the
# program, and what a unit takes that is planned before it is done, an XCT. Status 1: the two take more than two
# planned units. 2: nothing counts them.
set -eu
source "$(dirname "$0")/program.inc"
command -v valgrind >/dev/null || {
    echo 'machine instructions: not counted, as valgrind is not there'
    exit 2
}

counted_units=8000

# posting ACTIVE UNITS..: MOVEI 1,400000; MOVE 2,200; SIR; MOVE 2,201; AIC; EIR; MOVE 2,202; and then IIC of channel 0 and
# JRST 107 without end; the channel's handler is DEBRK alone. ACTIVE are the channels that are active.
posting() {
    echo 'LOGIN 0 A'
    poked 200 300000310 201 "$1" 202 400000000000 300 400 310 1000500 500 104000000136 \
        100 201040400000 101 200100000200 102 104000000125 103 200100000201 104 104000000131 105 104000000126 \
        106 200100000202 107 104000000132 110 254000000107
    shift
    echo 'START 0 100'
    [ $# -eq 0 ] || printf 'RUN %d\n' "$@"
}

# executing UNITS..: XCT 200 and JRST 100 without end, with MOVE 3,201 at 200. jumping UNITS..: MOVE 3,201 in its place.
executing() {
    echo 'LOGIN 0 A'
    poked 200 200140000201 201 5 100 256000000200 101 254000000100
    echo 'START 0 100'
    [ $# -eq 0 ] || printf 'RUN %d\n' "$@"
}
jumping() {
    echo 'LOGIN 0 A'
    poked 201 5 100 200140000201 101 254000000100
    echo 'START 0 100'
    [ $# -eq 0 ] || printf 'RUN %d\n' "$@"
}

# A round of posting is two units where nothing is taken, and four where it is: so these are the machine instructions of two.
taken=$((($(tenths posting 400000000000) * 4 - $(tenths posting 0) * 2) / 10))
planned=$((($(tenths executing) * 2 - $(tenths jumping)) / 10))
printf '%-36s %8d\n' 'an interrupt and its DEBRK' "$taken" 'a planned unit' "$planned"
[ "$taken" -le $((2 * planned)) ]
