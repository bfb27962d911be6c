#!/usr/bin/env bash
# Prints how many machine instructions calls on files take, with one file and with 512 of a page each, as ./tenex
# builds the program: a round of GTJFN and RLJFN, and one of a PMAP that maps a page of a file, an AOS there, and the
# PMAP that takes it away. Each round is told in machine instructions, with the few units around it. Names of files
# are found by halves, and pages of files in steps of six bits of a number; nothing else may grow with the files.
# Status 1: with 512 files a round takes more machine instructions than nine further halves may, which are allowed
# MOST each (200, or the argument). 2: nothing counts them.
set -eu
source "$(dirname "$0")/program.inc"
most=${1:-200}
counted_units=1000
command -v valgrind >/dev/null || {
    echo 'machine instructions: not counted, as valgrind is not there'
    exit 2
}

# made COUNT: the last so many of the files F000 to F511 of a user, and a word in a page of each.
made() {
    local n
    for ((n = 512 - $1; n < 512; n++)); do
        printf 'FILE <A>F%03d.\nWORDS <A>F%03d. 0 0 1\n' "$n" "$n"
    done
}

# The text F511. at 210, and the pointer to it.
name='200 440700000210 210 431526130534'

# naming COUNT UNITS..: MOVEI 1,0; MOVE 2,200; GTJFN; HALTF; RLJFN; HALTF; JRST 100: five units a round.
naming() {
    made "$1"
    shift
    echo 'LOGIN 0 A'
    # shellcheck disable=SC2086 # addresses and words in pairs
    poked $name 100 201040000000 101 200100000200 102 104000000020 103 104000000170 104 104000000023 105 104000000170 106 254000000100
    echo 'START 0 100'
    [ $# -eq 0 ] || printf 'RUN %d\n' "$@"
}

# mapping COUNT UNITS..: MOVE 2,200; GTJFN; HALTF; MOVEI 2,300000; OPENF; HALTF; HRLZI 5,(1); JRST 110; and there rounds of
# eight units: MOVE 1,5; MOVE 2,201; MOVE 3,202; PMAP; AOS 5000; MOVE 1,203; PMAP; JRST 110.
mapping() {
    made "$1"
    shift
    echo 'LOGIN 0 A'
    # shellcheck disable=SC2086
    poked $name 100 200100000200 101 104000000020 102 104000000170 103 201100300000 104 104000000021 105 104000000170 106 515241000000 107 254000000110 \
        110 200040000005 111 200100000201 112 200140000202 113 104000000056 114 350000005000 115 200040000203 116 104000000056 117 254000000110 \
        201 400000000005 202 140000000000 203 777777777777
    echo 'START 0 100'
    [ $# -eq 0 ] || printf 'RUN %d\n' "$@"
}

# round UNITS SCRIPT..: the machine instructions of a round of so many units of what makes a script, which runs to no end.
round() {
    local units=$1 unit
    shift
    unit=$(tenths "$@")
    "$program" run <one.script >/dev/null
    tail -n 2 tenex.record | grep -q "^U 0 1 $((2 * counted_units))\$" || {
        echo "files.sh: the program of $1 stopped" >&2
        exit 1
    }
    echo $((unit * units / 10))
}

failed=0
naming_one=$(round 5 naming 1)
naming_all=$(round 5 naming 512)
mapping_one=$(round 8 mapping 1)
mapping_all=$(round 8 mapping 512)
printf '%-24s %10s %10s\n' 'a round of' 'one file' '512 files'
printf '%-24s %10d %10d\n' 'GTJFN, RLJFN' "$naming_one" "$naming_all" 'PMAP, AOS, PMAP' "$mapping_one" "$mapping_all"
[ "$naming_all" -le $((naming_one + 9 * most)) ] || failed=1
[ "$mapping_all" -le $((mapping_one + 9 * most)) ] || failed=1
exit $failed
