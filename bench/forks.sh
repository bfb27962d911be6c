#!/usr/bin/env bash
# Prints how many machine instructions a CFORK takes, as ./tenex builds the program: in a job of two forks, and in one of
# 29, each alone and beside fifteen jobs of thirty. It is the difference between two runs of as many units, of which one
# makes a fork more and has three units less of a jump to itself.
# Status 1: in a job of 29 beside fifteen of thirty, so with 478 other forks, it takes more than 1.1 times as many as in
# a job of two alone. 2: nothing counts them.
set -eu
source "$(dirname "$0")/program.inc"
command -v valgrind >/dev/null || {
    echo 'machine instructions: not counted, as valgrind is not there'
    exit 2
}

# making TERMINAL FORKS LAST: a job that makes so many forks, which are halted: MOVEI 5,FORKS; SETZ 1,; CFORK; HALTF;
# SOJG 5,101; and then the last word.
making() {
    echo "LOGIN $1 A"
    printf "POKE $1 %s %s\n" 100 "$(printf '%o' $((8#201240000000 + $2)))" 101 400040000000 102 104000000152 \
        103 104000000170 104 367240000101 105 "$3"
    echo "START $1 100"
}

# forks JOBS FORKS: so many jobs of thirty forks, which are halted; and then the units of one that makes so many more.
forks() {
    local job
    for ((job = 1; job <= $1; job++)); do
        making "$job" 29 104000000170
        echo 'RUN 200'
    done
    making 0 "$2" 254000000105
    echo 'RUN 200'
}

# cfork JOBS FORKS: the machine instructions of a CFORK in a job of so many forks, beside so many jobs.
cfork() {
    local before=$(($2 - 1))
    forks "$1" "$before" >few.script
    forks "$1" "$2" >more.script
    { cat more.script; echo 'FORKS 0'; } >told.script
    "$program" run <told.script >told.transcript
    [ "$(grep -c '^' told.transcript)" -gt "$2" ] || {
        echo 'forks.sh: the forks were not made' >&2
        exit 1
    }
    echo $(($(instructions more.script) - $(instructions few.script)))
}

two=$(cfork 0 2)
many=$(cfork 0 29)
two_beside=$(cfork 15 2)
many_beside=$(cfork 15 29)
printf '%-28s %10s %10s\n' 'machine instructions' '2 forks' '29 forks'
printf '%-28s %10d %10d\n' 'CFORK' "$two" "$many"
printf '%-28s %10d %10d\n' 'CFORK, beside fifteen jobs' "$two_beside" "$many_beside"
[ $((10 * many_beside)) -le $((11 * two)) ]
