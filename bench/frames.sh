#!/usr/bin/env bash
# Prints how many machine instructions a unit takes over frames: with few frames and with as many as there may be, and with one fork and
# with 480; how many a page fault takes that is served, from the plan of a unit that needs a page to the unit itself, with the page that
# leaves for it, and how many of these are of the drum's file; how many the idle entries of a RUN take in which every member of the balance
# set waits; and how much memory the program has. All but the last leave out the start of the program: they are the difference between two
# runs. Status 1: a unit takes more than `most` times as many with many frames or forks as with few frames and one fork; the units of a fork
# that is alone take no fewer where no transfer is queued than where one is; a fault takes more than `copies` copies of a page, which move 32
# bytes each, and `beside` more, without what the drum's file takes; an idle entry takes more than one machine instruction, so that they are
# given one by one; or the memory at rest is more than the frames and `rest` megabytes. 2: nothing was counted.
set -eu
source "$(dirname "$0")/program.inc"
few=160 many=8192 most=1.1 copies=3 beside=3000 rest=40 failed=0
command -v valgrind >/dev/null || {
    echo 'machine instructions: not counted, as valgrind is not there'
    exit 2
}

# counted FRAMES SCRIPT: the machine instructions of a run with so many frames.
counted() {
    valgrind --tool=callgrind --callgrind-out-file="$work/callgrind" "$program" run --frames "$1" <"$2" 2>&1 >/dev/null |
        awk '/Collected/ { print $NF }'
}

# within WHAT NUMBER MOST: prints both; status 1 is noted where the number is more than it may be.
within() {
    local told=ok
    awk -v number="$2" -v most="$3" 'BEGIN { exit number > most }' || { told='TOO MANY'; failed=1; }
    printf '%-66s %10s of at most %10s  %s\n' "$1" "$2" "$3" "$told"
}

# What each loop pokes, an address and a word a pair. It runs from 1100 on, and its words are in page 5.
declare -A loops=(
    ['JRST 1100']='1100 254000001100'
    ['MOVE, ADD, MOVEM, JRST']='1100 200040005000 1101 270040005001 1102 202040005002 1103 254000001100 5000 1'
    ['MOVE, ILDB, HLRZ, TRNN, JRST']='1100 200100005000 1101 134040000002 1102 554140000001 1103 606140000001 1104 254000001100 5000 440700005001'
)

# at TERMINAL WORD..: addresses and words in pairs.
at() {
    local terminal=$1
    shift
    printf "POKE $terminal %s %s\n" "$@"
}

# unit_script JOBS FORKS LOOP LINE..: the loop at terminal 0, beside jobs of so many forks, which don't run; then these lines.
unit_script() {
    local jobs=$1 forks=$2 loop=$3 job
    shift 3
    for ((job = 0; job < jobs; job++)); do
        echo "LOGIN $job SMITH"
        [ "$forks" -eq 1 ] || {
            at "$job" 100 400040000000 101 104000000152 102 104000000170 103 254000000100
            printf 'START %d 100\nRUN 90\n' "$job"
        }
    done
    # shellcheck disable=SC2086 # addresses and words in pairs
    at 0 ${loops[$loop]}
    echo 'START 0 1100'
    [ $# -eq 0 ] || printf '%s\n' "$@"
}

# unit FRAMES JOBS FORKS LOOP LINE..: the tenths of a machine instruction that a unit takes, behind these lines.
unit() {
    local frames=$1 one two
    shift
    unit_script "$@" 'RUN 1000' "RUN $counted_units" >one.script
    unit_script "$@" 'RUN 1000' "RUN $counted_units" "RUN $counted_units" >two.script
    one=$(counted "$frames" one.script)
    two=$(counted "$frames" two.script)
    [ "$(tail -n 2 tenex.record | head -n 1)" = "U 0 1 $((2 * counted_units + 1000))" ] || echo "the loop did not run: $(tail -n 2 tenex.record)" >&2
    echo $(((two - one) * 10 / counted_units))
}

# tenth NUMBER: a number of tenths, with its point.
tenth() {
    echo "$(($1 / 10)).$(($1 % 10))"
}

for loop in 'JRST 1100' 'MOVE, ADD, MOVEM, JRST' 'MOVE, ILDB, HLRZ, TRNN, JRST'; do
    first=$(unit "$few" 1 1 "$loop")
    printf '%-66s %10s\n' "a unit of $loop, $few frames, 1 fork" "$(tenth "$first")"
    may=$(awk -v first="$first" -v most="$most" 'BEGIN { printf "%.1f\n", first * most / 10 }')
    within "with $many frames" "$(tenth "$(unit "$many" 1 1 "$loop")")" "$may"
    within "with $few frames, 480 forks" "$(tenth "$(unit "$few" 16 30 "$loop")")" "$may"
    within "with $many frames, 480 forks" "$(tenth "$(unit "$many" 16 30 "$loop")")" "$may"
done

# The map of another job is leaving all the while, so each row ends with its quantum.
moving=$(unit "$few" 2 1 'JRST 1100' 'AUTO OFF' 'EVICT 1')
spans=$(unit "$few" 2 1 'JRST 1100' 'AUTO OFF')
printf '%-66s %10s\n' 'JRST 1100 where a transfer is queued, a row a quantum' "$(tenth "$moving")"
within 'and where none is, so that a row spans quanta' "$(tenth "$spans")" "$(tenth $((moving - 1)))"

# A program that goes round and round through 200 pages: MOVEI 5,1000; ADD 1,0(5); ADDI 5,1000; CAIE 5,311000; JRST 101; JRST 100. With few
# frames the page of each ADD is on the drum, and one leaves for it; with many none is.
rounds() {
    echo 'LOGIN 0 SMITH'
    at 0 100 201240001000 101 270045000000 102 271240001000 103 302240311000 104 254000000101 105 254000000100
    echo 'START 0 100'
    yes 'RUN 801' | head -n "$1"
}

# of_transfers: the machine instructions of the run that was counted last in which transfers end, with those of the drum's file.
of_transfers() {
    callgrind_annotate --inclusive=yes --threshold=100 "$work/callgrind" |
        awk '/page_waits::completing::complete/ { gsub(",", "", $1); print $1; found = 1; exit } END { if (!found) print 0 }'
}

rounds 2 >two.script
rounds 12 >twelve.script
few_before=$(counted "$few" two.script)
moves_before=$(of_transfers)
read -r _ reads_before _ < <(tail -n 1 tenex.record)
few_behind=$(counted "$few" twelve.script)
moves_behind=$(of_transfers)
read -r _ reads_behind _ < <(tail -n 1 tenex.record)
many_before=$(counted "$many" two.script)
many_behind=$(counted "$many" twelve.script)
[ "$(tail -n 1 tenex.record)" = 'E 0 0' ]
faults=$((reads_behind - reads_before))
[ "$faults" -ge 2000 ]
whole=$(((few_behind - few_before - many_behind + many_before) / faults))
moves=$(((moves_behind - moves_before) / faults))
printf '%-66s %10d\n' 'a page fault that is served, with the page that leaves for it' "$whole"
printf '%-66s %10d\n' 'of these, the two transfers with the file of the drum' "$moves"
within 'and the rest: plans, fetches, waits and the unit' $((whole - moves)) $((copies * 4096 / 32 + beside))

# Every member of the balance set waits, under AUTO OFF.
idle() {
    printf 'LOGIN 0 SMITH\nPOKE 0 100 254000000100\nAUTO OFF\nSTART 0 100\nEVICT 1\nDRUM 1\nRUN 1\n'
    [ $# -eq 0 ] || printf 'RUN %d\n' "$@"
}
idle >start.script
idle 1000000 >idle.script
start=$(counted "$few" start.script)
behind=$(counted "$few" idle.script)
[ "$(tail -n 2 tenex.record)" = $'I 1000001\nE 0 1' ]
within 'a million idle entries, where every member waits under AUTO OFF' $((behind - start)) 1000000

# The memory of a run that has begun, and then waits for more of its script.
mkfifo lines
for frames in $few $many; do
    rm tenex.record
    "$program" run --frames "$frames" <lines >/dev/null &
    run=$!
    exec {lines}>lines
    echo 'LOGIN 0 SMITH' >&"$lines"
    for ((tries = 0; tries < 200; tries++)); do
        [ ! -s tenex.record ] || break
        sleep 0.1
    done
    rest_is=$(awk '/^VmRSS/ { print int($2 / 1024) }' /proc/$run/status)
    exec {lines}>&-
    wait "$run"
    within "megabytes of memory at rest, with $frames frames" "$rest_is" $((frames * 4096 / 1048576 + rest))
done
exit $failed
