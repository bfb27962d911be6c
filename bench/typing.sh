#!/usr/bin/env bash
# Prints how many machine instructions it takes to type 80 characters and to read them, in a job of one fork and in one
# of thirty, and how many a round of BOUT, SFPTR, BIN and SFPTR takes, with one file of one page and with 512 files, of
# which this one has 512 pages, as ./tenex builds the program. Status 1: with thirty forks the first takes more than an
# eighth more, since who waits is looked for among the slots of the job, or with 512 files the second takes
# more than MOST more machine instructions (400, or the argument). 2: nothing counts them.
set -eu
source "$(dirname "$0")/program.inc"
most=${1:-400}
command -v valgrind >/dev/null || {
    echo 'machine instructions: not counted, as valgrind is not there'
    exit 2
}

# reading FORKS ROUNDS: the top fork makes the others, which halt; CFORK of one with the caller's map, FORKS less one
# times; then PBIN; JRST without end, and so many rounds of 80 characters and the units that read them.
reading() {
    local round
    echo 'LOGIN 0 A'
    # MOVEI 5,FORKS; SOJE 5,110; MOVSI 1,400000; CFORK; HALTF; JRST 101; and at 110 PBIN; JRST 110
    # shellcheck disable=SC2046
    poked 100 "$(printf '%o' $((8#201240000000 + $1)))" 101 362240000110 102 205040400000 103 104000000152 104 104000000170 105 254000000101 \
        110 104000000073 111 254000000110
    printf 'START 0 100\nRUN 1000\n'
    for ((round = 0; round < $2; round++)); do
        printf 'TYPE 0 %s\nRUN 161\n' "$(printf 'x%.0s' {1..80})"
    done
}

# typed FORKS: the machine instructions of one such round.
typed() {
    local rounds=100
    reading "$1" $rounds >half.script
    reading "$1" $((2 * rounds)) >one.script
    "$program" run <one.script >/dev/null
    tail -n 2 tenex.record | grep -q '^U 0 1 161$' || {
        echo 'typing.sh: the characters were not read' >&2
        exit 1
    }
    echo $((($(instructions one.script) - $(instructions half.script)) / rounds))
}

# bytes COUNT UNITS..: the last so many of the files F000 to F511 of a user, of which F511 has as many pages; MOVE 2,200; GTJFN; HALTF; MOVEI 2,300000; OPENF; HALTF; and there rounds of eight units: MOVEI
# 2,101; BOUT; MOVE 2,201; SFPTR; HALTF; BIN; MOVE 2,201; SFPTR; HALTF; JRST 106, at a byte of page 777.
bytes() {
    local n
    for ((n = 512 - $1; n < 512; n++)); do
        printf 'FILE <A>F%03d.\n' "$n"
    done
    for ((n = 512 - $1; n < 512; n++)); do
        printf 'WORDS <A>F511. %o 0 1\n' "$n"
    done
    shift
    echo 'LOGIN 0 A'
    # the text F511. at 210, the pointer to it, and the position
    poked 200 440700000210 210 431526130534 201 777000 \
        100 200100000200 101 104000000020 102 104000000170 103 201100300000 104 104000000021 105 104000000170 \
        106 201100000101 107 104000000051 110 200100000201 111 104000000027 112 104000000170 113 104000000050 \
        114 200100000201 115 104000000027 116 104000000170 117 254000000106
    echo 'START 0 100'
    [ $# -eq 0 ] || printf 'RUN %d\n' "$@"
}

# round SCRIPT..: the machine instructions of a round of eight units of what makes a script, which runs to no end.
counted_units=8000
round() {
    local unit
    unit=$(tenths "$@")
    "$program" run <one.script >/dev/null
    tail -n 2 tenex.record | grep -q "^U 0 1 $((2 * counted_units))\$" || {
        echo 'typing.sh: the program stopped' >&2
        exit 1
    }
    echo $((unit * 8 / 10))
}

failed=0
typed_one=$(typed 1)
typed_thirty=$(typed 30)
printf '%-28s %10s %10s\n' 'machine instructions' 'one fork' '30 forks'
printf '%-28s %10d %10d\n' 'TYPE of 80, read by PBIN' "$typed_one" "$typed_thirty"
[ $((8 * typed_thirty)) -le $((9 * typed_one)) ] || failed=1
bytes_one=$(round bytes 1)
bytes_all=$(round bytes 512)
printf '%-28s %10s %10s\n' '' 'one file' '512 files'
printf '%-28s %10d %10d\n' 'BOUT, SFPTR, BIN, SFPTR' "$bytes_one" "$bytes_all"
[ "$bytes_all" -le $((bytes_one + most)) ] || failed=1
exit $failed
