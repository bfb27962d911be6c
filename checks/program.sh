#!/usr/bin/env bash
# Runs the built program on the examples, and into each way in which a run ends, and compares its exit
# status, its standard output and its record byte by byte. Status 1: something differs, and each
# difference was printed.
set -u
top=$(cd "$(dirname "$0")/.." && pwd)
program=$top/build/tenex
work=$(mktemp -d)
trap 'rm -rf "$work"' EXIT
cases=0
failures=0

fail() {
    echo "program.sh: FAILED: $*" >&2
    failures=$((failures + 1))
}

# same NAME WANTED FOUND: two files have the same bytes.
same() {
    cmp -s "$2" "$3" && return
    fail "$1 differs (wanted, then found):"
    diff <(od -c "$2" 2>&1) <(od -c "$3" 2>&1) >&2
}

# Makes the folder that the next case runs in.
fresh() {
    rm -rf "$work/at" && mkdir "$work/at"
}

# ends NAME STATUS OUT RECORD WORD..: the program, in the folder made by fresh and with the standard input
# of this call, ends with that status, and has written these bytes (as printf's %b writes them). A record -
# is not looked at. Standard error begins with the text of said, and is empty where that is. Where memory is
# set, the program has so many kilobytes.
memory=
said=
ends() {
    local name=$1 status=$2 out=$3 record=$4 found
    shift 4
    cases=$((cases + 1))
    (
        cd "$work/at" || exit
        [ -z "$memory" ] || ulimit -v "$memory"
        exec "$program" "$@"
    ) >"$work/out" 2>"$work/messages"
    found=$?
    [ "$found" -eq "$status" ] || fail "$name: status $found, wanted $status"
    printf '%b' "$out" >"$work/wanted"
    same "$name: standard output" "$work/wanted" "$work/out"
    if [ -z "$said" ]; then
        same "$name: standard error" /dev/null "$work/messages"
    elif [ "$(head -c ${#said} "$work/messages")" != "$said" ]; then
        fail "$name: standard error is not '$said ..' but '$(cat "$work/messages")'"
    fi
    [ "$record" = - ] && return
    printf '%b' "$record" >"$work/wanted"
    same "$name: record" "$work/wanted" "$work/at/tenex.record"
}

# The texts of an example, in the form that ends takes.
bytes_of() {
    sed 's/\\/\\\\/g; s/$/\\n/' "$1" | tr -d '\n'
}

"$top/tenex" build || fail "the build"
[ -x "$program" ] || exit 1

examples=0
for script in "$top"/examples/*.script "$top"/examples/*/*.script; do
    name=${script%.script}
    words=run
    [ ! -e "$name.words" ] || words=$(cat "$name.words")
    fresh
    # shellcheck disable=SC2086 # the words of a command are separate arguments
    ends "${name#"$top"/}" 0 "$(bytes_of "$name.transcript")" "$(bytes_of "$name.record")" $words <"$script"
    examples=$((examples + 1))
done
[ "$examples" -ge 2 ] || fail "there are only $examples examples"

# The fewest frames change neither text.
fresh
bytes=$top/examples/instructions/byte_units
ends "a byte loaded among 160 frames" 0 "$(bytes_of "$bytes.transcript")" "$(bytes_of "$bytes.record")" \
    run --frames 160 <"$bytes.script"

fresh
ends "the first script" 0 'T0 @A\\015\\012\nT0 @\n' 'LOGIN 0 SMITH\nPOKE 0 100 201040000101\nPOKE 0 101 104000000074\nPOKE 0 102 104000000170\nSTART 0 100\nU 0 1 3\nI 2\nE 0 0\n' run <"$top/examples/first.script"
fresh
ends "the empty script" 0 '' 'E 0 0\n' run </dev/null
fresh
echo 'of an earlier run' >"$work/at/tenex.record"
ends "a record of an earlier run" 0 '' 'E 0 0\n' run </dev/null

fresh
printf 'LOGIN 0 A\nLOGIN 0 A\nSTART 3 100\nFORKS 0\n' >"$work/script"
ends "refused events" 0 'T0 @\n?BUSY 0\n?NO JOB 3\nF 0 1 0 HALT PC 000000\n' 'LOGIN 0 A\nLOGIN 0 A\nSTART 3 100\nFORKS 0\nE 0 0\n' run <"$work/script"

# Each opcode once, with an address whose word jumps on, a stack, and halting for the monitor call: the 157
# illegal ones trap, and no other.
fresh
echo 'LOGIN 0 A' >"$work/script"
for ((opcode = 0; opcode < 512; opcode++)); do
    address=$((opcode == 8#104 ? 8#170 : 8#41))
    printf 'POKE 0 0 777000001000\nPOKE 0 41 254000000101\nPOKE 0 100 %o\nSTART 0 100\nRUN 1\n' \
        $((opcode << 27 | address))
done >>"$work/script"
cases=$((cases + 1))
(cd "$work/at" && exec "$program" run <"$work/script" >"$work/out") || fail "illegal opcodes: status $?"
illegal=$(grep -cxF 'T0 ?FORCED 15\015\012' "$work/out")
[ "$illegal" -eq 157 ] || fail "illegal opcodes: $illegal trap, wanted 157"

fresh
ends "sizes that are asked for" 0 '' 'E 0 0\n' run --drum=256 --frames 160 </dev/null

# A generated script: eight users whose programs make 2774 turns of three units, and end in three more each, two of
# them calls. The rest of its 20000 turns are idle; each user's @, B and the return to the monitor are five characters. How often the drum
# is read and written, frames.py works out.
summary='S 162 8346 11654 40'
for case in '1034 1989 7 --frames 160' '9 35 7 --frames 8192' '1125 1984 --drum=16384 7' '1034 1989 --frames 160 7 --drum 16384'; do
    read -r reads writes words <<<"$case"
    fresh
    cases=$((cases + 1))
    # shellcheck disable=SC2086 # the words of a command are separate arguments
    (cd "$work/at" && exec "$program" big $words) <"$work/script" >"$work/out" 2>"$work/messages" || fail "big $words: status $?"
    [ "$(tail -n 1 "$work/out")" = "$summary" ] || fail "big $words: the last line is '$(tail -n 1 "$work/out")'"
    [ "$(tail -n 1 "$work/at/tenex.record")" = "E $reads $writes" ] || fail "big $words: the record ends with '$(tail -n 1 "$work/at/tenex.record")'"
    [ ! -s "$work/messages" ] || fail "big $words: '$(cat "$work/messages")'"
    units=$(awk '/^U / { n += $4 } /^I / { i += $2 } END { print n, i }' "$work/at/tenex.record")
    [ "S 162 $units 40" = "$summary" ] || fail "big $words: the record has $units units and idle entries"
done
cp "$work/out" "$work/first_out"
cp "$work/at/tenex.record" "$work/first_record"
fresh
cases=$((cases + 1))
(cd "$work/at" && exec "$program" big --frames 160 7 --drum 16384) </dev/null >"$work/out" || fail "big once more: status $?"
same "big once more: standard output" "$work/first_out" "$work/out"
same "big once more: record" "$work/first_record" "$work/at/tenex.record"
fresh
cases=$((cases + 1))
(cd "$work/at" && exec "$program" big 8) </dev/null >"$work/out" || fail "big 8: status $?"
! cmp -s "$work/first_record" "$work/at/tenex.record" || fail "big 8: the record is that of another seed"
fresh
cases=$((cases + 1))
(cd "$work/at" && exec "$program" big 7) </dev/null >/dev/full 2>/dev/null
[ $? -eq 6 ] || fail "big with a transcript that can't be written: another status than 6"

said='usage: tenex run [--frames N] [--drum N]'
fresh
ends "a generated script without a seed" 1 '?USAGE\n' '' big --frames 160 </dev/null
fresh
ends "a run with a seed" 1 '?USAGE\n' '' run 7 </dev/null
fresh
ends "too few frames" 1 '?USAGE\n' '' run --frames 159 </dev/null
fresh
ends "an option given twice" 1 '?USAGE\n' '' run --frames 160 --frames 160 </dev/null
fresh
ends "two hyphens alone" 1 '?USAGE\n' '' run -- </dev/null
fresh
ends "a word for help" 1 '?USAGE\n' '' run --help </dev/null
for words in '' help --help; do
    fresh
    echo 'of an earlier run' >"$work/at/tenex.record"
    # shellcheck disable=SC2086 # no word, or one
    ends "the words '$words'" 1 '?USAGE\n' 'of an earlier run\n' $words <"$top/examples/first.script"
done
fresh
ends "one word too many" 1 '?USAGE\n' '' run run <"$top/examples/first.script"
fresh
ends "another word" 1 '?USAGE\n' '' RUN <"$top/examples/first.script"
fresh
ends "a word that is no text" 1 '?USAGE\n' '' $'run\xff' <"$top/examples/first.script"

said='tenex: line 2 is no line of a script: STOP'
fresh
printf 'LOGIN 0 A\nSTOP\nTRACE ON\n' >"$work/script"
ends "a bad line" 2 'T0 @\n?LINE 2\n' 'LOGIN 0 A\n' run <"$work/script"
said='tenex: line 2 is no line of a script: it has bytes that are not printed'
fresh
printf 'LOGIN 0 A\nRUN 2\r\n' >"$work/script"
ends "a bad line with a byte that is not printed" 2 'T0 @\n?LINE 2\n' 'LOGIN 0 A\n' run <"$work/script"
said='tenex: line 201 has more than 256 bytes'
fresh
{ yes '; a line of 20 bytes' | head -n 200; printf ';%256d\n' 0; } >"$work/script"
ends "a line that is too long" 2 '?LINE 201\n' '' run <"$work/script"
said='tenex: line 3 does not end with a line feed'
fresh
printf 'LOGIN 0 A\nRUN 2\nRUN 3' >"$work/script"
ends "a last line without its end" 2 'T0 @\n?LINE 3\n' 'LOGIN 0 A\nI 2\n' run <"$work/script"

# A line of 256 bytes is a line: 62 characters that are typed as octal digits, which the record has as they are. One byte
# more is too long.
said=
letters=$(printf 'A%.0s' {1..62})
fresh
{ printf 'LOGIN 15 A\nTYPE 15 ' && printf '\\101%.0s' {1..62} && echo; } >"$work/script"
[ "$(tail -n 1 "$work/script" | wc -c)" -eq 257 ] || fail "a line of 256 bytes: the check has another"
ends "a line of 256 bytes" 0 "T15 @$letters\n" "LOGIN 15 A\nTYPE 15 $letters\nE 0 0\n" run <"$work/script"
said='tenex: line 2 has more than 256 bytes'
fresh
sed -i '2s/$/B/' "$work/script"
ends "a line of 257 bytes" 2 'T15 @\n?LINE 2\n' 'LOGIN 15 A\n' run <"$work/script"

# The first script cut after each of its bytes. The lines whose line feed stands before the cut are run, and what stands
# behind the last of these is a bad line. The letter is printed by the RUN, the last line.
printf 'LOGIN 0 SMITH\nPOKE 0 100 201040000101\nPOKE 0 101 104000000074\nPOKE 0 102 104000000170\nSTART 0 100\nRUN 5\n' >"$work/script"
size=$(wc -c <"$work/script")
for ((cut = 0; cut <= size; cut++)); do
    head -c "$cut" "$work/script" >"$work/front"
    whole=$(wc -l <"$work/front")
    record=$(head -n "$whole" "$work/front" | sed '/^RUN/d; s/$/\\n/' | tr -d '\n')
    out='T0 @\n'
    [ "$whole" -gt 0 ] || out=
    if [ "$whole" -eq 6 ]; then
        out='T0 @A\\015\\012\nT0 @\n'
        record=$record'U 0 1 3\nI 2\n'
    fi
    fresh
    if [ -z "$(tail -c 1 "$work/front")" ]; then
        said=
        ends "the first script cut after $cut bytes" 0 "$out" "${record}E 0 0\n" run <"$work/front"
    else
        said="tenex: line $((whole + 1)) does not end with a line feed"
        ends "the first script cut after $cut bytes" 2 "$out?LINE $((whole + 1))\n" "$record" run <"$work/front"
    fi
done

# A script may ask for 2^40 turns, and for no more: 1099511 lines of a million, one of 627776, and one of 1.
said='tenex: with line 1099513 the script asks for more than 1099511627776 turns'
fresh
{ yes 'RUN 1000000' | head -n 1099511; printf 'RUN 627776\nRUN 1\n'; } >"$work/script"
ends "more turns than a script may ask for" 2 '?LINE 1099513\n' 'I 1099511627776\n' run <"$work/script"

said='tenex: there is no memory'
fresh
memory=40000
ends "no memory for so many frames" 4 '?MEMORY\n' '' run --frames 8192 <"$top/examples/first.script"
memory=

said='tenex: standard input: '
fresh
ends "a script that can't be read" 5 '?READ\n' '' run <"$work/at"

fresh
cases=$((cases + 1))
(cd "$work/at" && exec "$program" run) <"$top/examples/first.script" >/dev/full 2>/dev/null
[ $? -eq 6 ] || fail "a transcript that can't be written: another status than 6"
said='tenex: tenex.record: '
fresh
ln -s /dev/full "$work/at/tenex.record"
ends "a record that can't be written" 6 '' - run </dev/null

# A transcript that nobody reads: the record is a front of that of the whole run.
fresh
cases=$((cases + 1))
{ printf 'LOGIN 0 A\n' && yes 'EXAMINE 0 1 0' | head -n 100000; } >"$work/script"
(cd "$work/at" && "$program" run) <"$work/script" >/dev/null && mv "$work/at/tenex.record" "$work/whole"
(cd "$work/at" && { "$program" run 2>"$work/messages"; echo $? >"$work/status"; } | :) <"$work/script"
[ "$(cat "$work/status")" = 6 ] || fail "a transcript that nobody reads: status $(cat "$work/status"), wanted 6"
size=$(wc -c <"$work/at/tenex.record")
[ "$size" -gt 0 ] && cmp -s -n "$size" "$work/whole" "$work/at/tenex.record" || fail "a transcript that nobody reads: the record of $size bytes is no front"
grep -q '^tenex: standard output: ' "$work/messages" || fail "a transcript that nobody reads: '$(cat "$work/messages")'"

# A person sees each answer before the next line is read: what was answered so far, and then one line more.
fresh
cases=$((cases + 1))
coproc person { cd "$work/at" && exec "$program" run; }
# (kept, since both are unset once it has ended)
person_reads=${person[0]} person_writes=${person[1]} person_is=$person_PID
# answers TEXT BYTES: behind a line that is typed the program writes these bytes, before any other line.
answers() {
    local found
    printf '%b' "$1" >&"$person_writes"
    read -r -t 10 -d '' -N "$(printf '%b' "$2" | wc -c)" -u "$person_reads" found
    [ "$found" = "$(printf '%b' "$2")" ] || fail "a person who types '$1' reads '$found'"
}
answers 'LOGIN 0 A\n' 'T0 @'
answers '; a comment\nFORKS 0\n' '\nF 0 1 0 HALT PC 000000'
answers 'START 3 100\n' '\n?NO JOB 3'
exec {person_writes}>&-
wait "$person_is" || fail "a person who ends the script: status $?"

said=
fresh
yes ';234567' | head -c 16777216 >"$work/script"
ends "a script as long as one may be" 0 '' 'E 0 0\n' run <"$work/script"
said='tenex: the script has more than'
fresh
yes '; a comment' | head -c 16777217 >"$work/script"
ends "comments that are too long" 7 '?LONG SCRIPT\n' '' run <"$work/script"
fresh
yes 'RUN 1' | head -c 16777217 >"$work/script"
ends "a script that is too long" 7 '?LONG SCRIPT\n' 'I 2796202\n' run <"$work/script"

# Standard streams that are closed fail where they are used, and the record is never opened in their place.
said='tenex: standard input: '
fresh
ends "a script that is closed" 5 '?READ\n' '' run <&-
fresh
cases=$((cases + 1))
(cd "$work/at" && exec "$program" run) <"$top/examples/first.script" >&- 2>"$work/messages"
[ $? -eq 6 ] || fail "a transcript that is closed: another status than 6"
grep -q '^tenex: standard output: ' "$work/messages" || fail "a transcript that is closed: '$(cat "$work/messages")'"
! grep -q '^T0' "$work/at/tenex.record" || fail "a transcript that is closed: it stands in the record"
said=
fresh
cases=$((cases + 1))
(cd "$work/at" && exec "$program" run --frames 159) </dev/null >"$work/out" 2>&-
[ $? -eq 1 ] || fail "standard error that is closed: another status than 1"
[ "$(cat "$work/out")" = '?USAGE' ] && [ ! -s "$work/at/tenex.record" ] || fail "standard error that is closed: the help stands elsewhere"

# A run that is stopped leaves what was done before the line at hand, once that was much: whole lines in both texts.
{ printf 'LOGIN 0 A\nPOKE 0 100 254000000100\nSTART 0 100\nRUN 100001\nEXAMINE 0 1 100\nRUN 100001\n' && yes 'RUN 1000000' | head -n 100000; } >"$work/long"
for signal in KILL TERM INT; do
    fresh
    cases=$((cases + 1))
    # (a command in the background of a script ignores INT, but for env)
    (cd "$work/at" && exec env --default-signal=INT "$program" run) <"$work/long" >"$work/out" &
    run=$!
    for ((tries = 0; tries < 200; tries++)); do
        ! grep -q '^EXAMINE' "$work/at/tenex.record" 2>/dev/null || break
        sleep 0.1
    done
    kill -"$signal" "$run"
    wait "$run" 2>/dev/null
    [ $? -gt 128 ] || fail "a run that is stopped by $signal: it goes on"
    printf 'T0 @\nX 0 1 000100 254000000100\n' | cmp -s - "$work/out" || fail "a run that is stopped by $signal: its transcript is '$(cat "$work/out")'"
    printf 'LOGIN 0 A\nPOKE 0 100 254000000100\nSTART 0 100\nU 0 1 100001\nEXAMINE 0 1 100\n' | cmp -s -n 75 - "$work/at/tenex.record" ||
        fail "a run that is stopped by $signal: its record is '$(head -c 200 "$work/at/tenex.record")'"
done

# A disk that is full, as a limit of 8 blocks for each file: the text is a front of that of the whole run, and the status tells.
{ printf 'LOGIN 0 A\n' && yes 'EXAMINE 0 1 0' | head -n 2000; } >"$work/script"
fresh
(cd "$work/at" && "$program" run) <"$work/script" >"$work/whole_out" && mv "$work/at/tenex.record" "$work/whole"
# full NAME TEXT WHOLE: of the run in the folder at hand this text, which met the limit, is a front of the whole one.
full() {
    local found=$?
    cases=$((cases + 1))
    [ "$found" -eq 6 ] || fail "$1: status $found, wanted 6"
    local size
    size=$(wc -c <"$2")
    [ "$size" -gt 0 ] && [ "$size" -lt "$(wc -c <"$3")" ] && cmp -s -n "$size" "$2" "$3" || fail "$1: what was written is no front, $size bytes"
}
fresh
(trap '' XFSZ && ulimit -f 8 && cd "$work/at" && exec "$program" run) <"$work/script" 2>"$work/messages" | cat >"$work/out"
(exit "${PIPESTATUS[0]}")
full "a disk that is full for the record" "$work/at/tenex.record" "$work/whole"
grep -q '^tenex: tenex.record: ' "$work/messages" || fail "a disk that is full for the record: '$(cat "$work/messages")'"
fresh
ln -s /dev/null "$work/at/tenex.record"
(trap '' XFSZ && ulimit -f 8 && cd "$work/at" && exec "$program" run) <"$work/script" >"$work/out" 2>/dev/null
full "a disk that is full for the transcript" "$work/out" "$work/whole_out"

# The same on a small file system that is full, where one can be mounted.
mkdir "$work/small"
if mount -t tmpfs -o size=16k tmpfs "$work/small" 2>"$work/messages"; then
    trap 'umount "$work/small"; rm -rf "$work"' EXIT
    (cd "$work/small" && exec "$program" run) <"$work/script" 2>"$work/messages" >"$work/out"
    full "a file system that is full for the record" "$work/small/tenex.record" "$work/whole"
    grep -q '^tenex: tenex.record: .*[Nn]o space' "$work/messages" || fail "a file system that is full for the record: '$(cat "$work/messages")'"
    rm "$work/small/tenex.record"
    fresh
    (cd "$work/at" && exec "$program" run) <"$work/script" >"$work/small/out" 2>"$work/messages"
    full "a file system that is full for the transcript" "$work/small/out" "$work/whole_out"
    grep -q '^tenex: standard output: .*[Nn]o space' "$work/messages" || fail "a file system that is full for the transcript: '$(cat "$work/messages")'"
else
    echo "program.sh: no file system can be mounted here, so a full one was not tried" >&2
fi

# A second run in the folder of one that is at work leaves its record alone, and says so.
fresh
cases=$((cases + 1))
mkfifo "$work/lines"
(cd "$work/at" && exec "$program" run) <"$work/lines" >"$work/first" &
run=$!
exec {lines}>"$work/lines"
printf 'LOGIN 0 A\n' >&"$lines"
for ((tries = 0; tries < 200; tries++)); do
    [ ! -s "$work/at/tenex.record" ] || break
    sleep 0.1
done
said='tenex: tenex.record: another run writes the record'
ends "a second run in one folder" 9 '?CANNOT OPEN\n' 'LOGIN 0 A\n' run <"$top/examples/first.script"
exec {lines}>&-
wait "$run" || fail "the first of two runs in one folder: status $?"
printf 'T0 @\n' | cmp -s - "$work/first" || fail "the first of two runs in one folder: its transcript is '$(cat "$work/first")'"
printf 'LOGIN 0 A\nE 0 0\n' | cmp -s - "$work/at/tenex.record" || fail "the first of two runs in one folder: its record is '$(cat "$work/at/tenex.record")'"

said='tenex: tenex.record: '
fresh
mkfifo "$work/at/tenex.record"
ends "a pipe in the place of the record" 9 '?CANNOT OPEN\n' - run <"$top/examples/first.script"
fresh
mkdir "$work/at/tenex.record"
ends "a record that can't be made" 9 '?CANNOT OPEN\n' - run <"$top/examples/first.script"
fresh
ln -s "$work/nowhere/tenex.record" "$work/at/tenex.record"
ends "a record that is a link to nothing that can be made" 9 '?CANNOT OPEN\n' - run <"$top/examples/first.script"
fresh
cases=$((cases + 1))
(mkdir "$work/at/gone" && cd "$work/at/gone" && rmdir "$work/at/gone" && exec "$program" run) <"$top/examples/first.script" >"$work/out" 2>"$work/messages"
[ $? -eq 9 ] || fail "a folder that is gone: another status than 9"
[ "$(cat "$work/out")" = '?CANNOT OPEN' ] && grep -q "^$said" "$work/messages" || fail "a folder that is gone: '$(cat "$work/out" "$work/messages")'"
said=
fresh
ln -s ../elsewhere "$work/at/tenex.record"
ends "a record that is a link" 0 '' 'E 0 0\n' run </dev/null
[ "$(cat "$work/elsewhere")" = 'E 0 0' ] || fail "a record that is a link: it stands elsewhere"

if [ "$failures" -ne 0 ]; then
    echo "program.sh: $failures failures in $cases cases" >&2
    exit 1
fi
echo "program.sh: $cases cases passed"
