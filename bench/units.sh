#!/usr/bin/env bash
# Prints how many machine instructions a unit takes over frames, and in a replay, whose pages are in memory; and how
# many units a second the program runs, as ./tenex builds it, in loops of a few instructions: alone; beside other jobs;
# at the end of chains; in a job of thirty forks of which one runs, and of which all do; and how long it takes to make
# and kill forks. All leave out the start of the program: they are the difference between two runs. The seconds are of
# processor time.
# Status 1: in a job of thirty forks of which one runs a unit takes more than 1.1 times as many machine
# instructions as in a job of one; or 100,000 forks take more than two seconds to be made and killed.
set -eu
source "$(dirname "$0")/program.inc"
millions=${1:-20}
failed=0

# What each loop pokes at terminal 0, an address and a word a pair. It runs from 1100 on, and its words are in page 5, those of
# the sixth in pages 5 and 6. PBOUT prints one letter in each second unit.
declare -A loops=(
    ['JRST 1100']='1100 254000001100'
    ['AOS 0(2); ADD 2,4; SOJG 3,1100']='2 5000 3 377777777777 1100 350002000000 1101 270100000004 1102 367140001100 5000 0'
    ['MOVE, ADD, MOVEM, JRST']='1100 200040005000 1101 270040005001 1102 202040005002 1103 254000001100 5000 1'
    ['MOVE, ILDB, HLRZ, TRNN, JRST']='1100 200100005000 1101 134040000002 1102 554140000001 1103 606140000001 1104 254000001100 5000 440700005001'
    ['PUSHJ, PUSH, POP, POPJ, JRST']='17 777000005077 1100 260740001110 1101 254000001100 1110 261740005000 1111 262740005001 1112 263740000000 5000 1'
    ['MOVE, ADD, MOVEM, MOVEM, JRST, two pages']='1100 200040005000 1101 270040006000 1102 202040005001 1103 202040006001 1104 254000001100 5000 1 6000 2'
    ['PBOUT, JRST']='1 101 1100 104000000074 1101 254000001100'
)
order=('JRST 1100' 'AOS 0(2); ADD 2,4; SOJG 3,1100' 'MOVE, ADD, MOVEM, JRST' 'MOVE, ILDB, HLRZ, TRNN, JRST' 'PUSHJ, PUSH, POP, POPJ, JRST'
    'MOVE, ADD, MOVEM, MOVEM, JRST, two pages' 'PBOUT, JRST')

# A program by which pages 1 and 5 stand at the end of chains of four entries: pages 1 to 4 follow one another, and so
# do pages 5 to 8. MOVE 1,200; MOVE 2,201; MOVE 3,202; PMAP, three pages in as many units; the same with 203 and 204;
# HALTF. At 200 stand page 2, page 1, how many pages with every right, page 6 and page 5.
chains='100 200040000200 101 200100000201 102 200140000202 103 104000000056
    104 200040000203 105 200100000204 106 200140000202 107 104000000056 110 104000000170
    200 400000000002 201 400000000001 202 560000000003 203 400000000006 204 400000000005'

# A program that makes 29 inferiors, which are halted and have no pages: SETZ 1,; CFORK; HALTF; JRST 100.
halted='100 400040000000 101 104000000152 102 104000000170 103 254000000100'

# The same, but each of them runs: JRST 3 in its accumulators. MOVE 1,200; MOVEI 2,200; CFORK; HALTF; JRST 100. At 200
# stand the first accumulator 1 of CFORK (bits 3 and 4, from 3 on) and what is in the accumulators of each inferior.
running='100 200040000200 101 201100000200 102 104000000152 103 104000000170 104 254000000100
    200 060000000003 203 254000000003'

# script JOBS PROGRAM UNITS LOOP UNITS..: the loop at terminal 0, beside jobs that do not run, behind a program there
# that runs for so many units, if there is one; with RUN lines of so many units.
script() {
    local jobs=$1 program=$2 units=$3 loop=$4 job
    shift 4
    for ((job = 0; job < jobs; job++)); do
        echo "LOGIN $job SMITH"
    done
    # shellcheck disable=SC2086 # addresses and words in pairs
    if [ -n "$program" ]; then
        poked $program
        printf 'START 0 100\nRUN %d\n' "$units"
    fi
    # shellcheck disable=SC2086
    poked ${loops[$loop]}
    echo 'START 0 1100'
    [ $# -eq 0 ] || printf 'RUN %d\n' "$@"
}

# making UNITS..: a program that makes a fork and kills it, four units each: MOVEI 1,0; CFORK; HALTF; KFORK; JRST 100.
making() {
    echo 'LOGIN 0 SMITH'
    poked 100 201040000000 101 104000000152 102 104000000170 103 104000000153 104 254000000100
    echo 'START 0 100'
    [ $# -eq 0 ] || printf 'RUN %d\n' "$@"
}

# units_in_a_us MILLIONS SCRIPT..: how many units of what makes a script are run in a millionth of a second.
units_in_a_us() {
    local of=$1 taken
    shift
    "$@" >start.script
    # shellcheck disable=SC2046 # a number a RUN line
    "$@" $(yes 1000000 | head -n "$of") >long.script
    taken=$(($(milliseconds long.script) - $(milliseconds start.script)))
    echo $((of * 1000 / (taken > 0 ? taken : 1)))
}

# measure NAME MILLIONS SCRIPT..: a line of the table, of what makes a script where the units of its RUN lines follow.
# Leaves the tenths over frames in counted, which are 0 where nothing counts them.
measure() {
    local name=$1 of=$2
    shift 2
    "$@" 100000 >one.script
    "$program" run <one.script >/dev/null
    [ "$(tail -n 1 tenex.record)" = 'E 0 0' ]
    ! grep -q '^I' tenex.record
    counted=0
    in_memory=0
    [ -z "$counts" ] || {
        counted=$(tenths "$@")
        in_memory=$(tenths_in_memory)
    }
    printf '%-45s %10s %10s %12d' "$name" "$((counted / 10)).$((counted % 10))" "$((in_memory / 10)).$((in_memory % 10))" "$(units_in_a_us "$of" "$@")"
}

counts=$(command -v valgrind || true)
[ -n "$counts" ] || echo 'machine instructions: not counted, as valgrind is not there'
printf '%-45s %10s %10s %12s %8s\n' 'loop, machine instructions' 'frames' 'memory' 'units a us' 'ratio'
declare -A alone
for loop in "${order[@]}"; do
    measure "$loop" "$millions" script 1 '' 0 "$loop"
    echo
    alone[$loop]=$counted
done
measure 'JRST 1100, beside fifteen jobs' "$millions" script 16 '' 0 'JRST 1100'
echo
for loop in "${order[@]}"; do
    measure "$loop, chains" "$millions" script 1 "$chains" 13 "$loop"
    echo
done
for loop in "${order[@]}"; do
    measure "$loop, 30 forks" "$millions" script 1 "$halted" 119 "$loop"
    if [ -n "$counts" ]; then
        awk -v now="$counted" -v before="${alone[$loop]}" 'BEGIN { printf " %8.2f\n", now / before; exit now > 1.1 * before }' || failed=1
    else
        echo
    fi
done
# Where all thirty run, each runs to the end of its quantum before the next.
measure 'JRST 1100, 30 forks that run' "$millions" script 1 "$running" 3000 'JRST 1100'
echo
"$program" run <one.script >/dev/null
[ "$(tail -n 40 tenex.record | grep '^U 0 [0-9]* 200$' | sort -u | wc -l)" = 30 ]

making >start.script
making 400000 >long.script
"$program" run <long.script >/dev/null
[ "$(tail -n 2 tenex.record)" = $'U 0 1 400000\nE 0 0' ]
taken=$(($(milliseconds long.script) - $(milliseconds start.script)))
echo "100,000 forks, made and killed: $taken ms"
[ "$taken" -le 2000 ] || failed=1
exit $failed
