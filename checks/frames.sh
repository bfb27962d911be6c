#!/usr/bin/env bash
# Runs the built program with few frames, and looks whether anything but whose turn it is tells of that: each example, with every frame
# evicted before each RUN; a generated script with the fewest frames and with the most; more pages than frames; and a drum that is full.
# The schedules and counts of some are worked out a second time (frames.py). Status 1: something differs, and each difference was printed.
set -u
top=$(cd "$(dirname "$0")/.." && pwd)
program=$top/build/tenex
work=$(mktemp -d)
trap 'rm -rf "$work"' EXIT
cd "$work" || exit 1
failures=0

fail() {
    echo "frames.sh: FAILED: $*" >&2
    failures=$((failures + 1))
}

"$top/tenex" build || fail "the build"
[ -x "$program" ] || exit 1

python3 "$top/checks/frames.py" "$program" || fail "a record is another than worked out"

# What a terminal shows of a transcript, its characters in order.
shown() {
    sed -n "s/^T$1 //p" "$2" | tr -d '\n'
}

# Each example with 160 frames, of which every one is evicted before each RUN. Its record replays to its transcript, so all that it shows is
# what a machine without frames shows. That is the transcript of the example too, but for these, in which one sees whose turn it is.
by_turns=' auto_off fork_call_rows freeze frozen_while_waiting halt_waiting killed killed_while_holding killed_while_waiting lesson_waits rescued_page scheduler shared_page_away '
every=$(seq -f 'EVICT %g' 0 159)
examples=0
for script in "$top"/examples/*.script "$top"/examples/*/*.script; do
    name=${script%.script}
    drum=
    [ ! -e "$name.words" ] || drum=$(sed -nE 's/.*(--drum [0-9]+).*/\1/p' "$name.words")
    every=$every awk '/^RUN / { print ENVIRON["every"]; print "DRUM 200" } { print }' "$script" >script
    # shellcheck disable=SC2086 # an option and its number, or nothing
    "$program" run --frames 160 $drum <script >out || fail "${name#"$top"/}, evicted: status $?"
    # shellcheck disable=SC2086
    "$program" replay $drum <tenex.record | cmp -s - out || fail "${name#"$top"/}, evicted: its record replays to another transcript"
    [ "${by_turns#* "${name##*/}" }" != "$by_turns" ] || cmp -s "$name.transcript" out || fail "${name#"$top"/}, evicted: it shows something else"
    examples=$((examples + 1))
done
[ "$examples" -ge 150 ] || fail "there are only $examples examples"
cmp -s "$top"/examples/lesson_copy.transcript "$top"/examples/evicted_copy.transcript || fail "evicted_copy shows something else than lesson_copy"

# The generated script with the fewest frames and with the most: each terminal shows the same, and what is last in both is the same.
for frames in 160 8192; do
    "$program" big 7 --frames $frames >"out.$frames" || fail "big 7 with $frames frames: status $?"
    mv tenex.record "record.$frames"
    "$program" replay <"record.$frames" | cmp -s - <(head -n -1 "out.$frames") || fail "big 7 with $frames frames: its record replays to another transcript"
    tail -n 9 "out.$frames" >"last.$frames"
    grep -vE '^(U|E) ' "record.$frames" >"events.$frames"
done
for t in {0..7}; do
    [ "$(shown "$t" out.160)" = "$(shown "$t" out.8192)" ] || fail "big 7: terminal $t shows something else with fewer frames"
done
cmp -s last.160 last.8192 && cmp -s events.160 events.8192 || fail "big 7: the forks, the counts or the events are others with fewer frames"

# A word in each of 300 pages. With the map 301 have to be in 160 frames, so 141 pages leave; the first comes back, for which one more leaves.
{
    echo 'LOGIN 0 A'
    for ((page = 1; page <= 300; page++)); do printf 'POKE 0 %o 1\n' $((page * 512)); done
    echo 'EXAMINE 0 1 1000'
} >script
for counts in '160 1 142' '300 1 2' '301 0 0' '8192 0 0'; do
    read -r frames reads writes <<<"$counts"
    "$program" run --frames "$frames" <script >out || fail "300 pages in $frames frames: status $?"
    printf 'T0 @\nX 0 1 001000 000000000001\n' | cmp -s - out || fail "300 pages in $frames frames: '$(cat out)'"
    { cat script; echo "E $reads $writes"; } | cmp -s - tenex.record || fail "300 pages in $frames frames: the record ends with '$(tail -n 1 tenex.record)'"
done

# The bytes of a word on the drum. The page of the byte is the third that was made, so its home is 2.
"$program" run --frames 160 <"$top/examples/evicted_byte.script" >/dev/null
[ "$(od -A n -t x1 -j 8192 -N 8 tenex.drum)" = ' 00 00 00 08 20 00 00 00' ] || fail "the word 404000000000 stands on the drum as $(od -A n -t x1 -j 8192 -N 8 tenex.drum)"
[ "$(wc -c <tenex.drum)" -eq 67108864 ] || fail "the drum has $(wc -c <tenex.drum) bytes"

# A disk that is full, as a limit of 8 blocks for each file: the third page finds no place on the drum.
(trap '' XFSZ && ulimit -f 8 && exec "$program" run --frames 160) <"$top/examples/evicted_byte.script" >out 2>messages
status=$?
[ "$status" -eq 3 ] || fail "a drum that is full: status $status, wanted 3"
printf 'T0 @\n?DRUM\n' | cmp -s - out || fail "a drum that is full: '$(cat out)'"
printf 'LOGIN 0 A\nPOKE 0 100 134100000120\nPOKE 0 120 10700000777\nPOKE 0 1000 404000000000\nSTART 0 100\nU 0 1 1\n' | cmp -s - tenex.record ||
    fail "a drum that is full: the record is '$(cat tenex.record)'"
grep -q '^tenex: tenex.drum: ' messages || fail "a drum that is full: '$(cat messages)'"

# A drum that can't be made; one of an earlier run, which tells nothing; and one that another run has.
mkdir at && cd at || exit 1
mkdir tenex.drum
"$program" run <"$top/examples/first.script" >../out 2>../messages
status=$?
[ "$status" -eq 9 ] && [ "$(cat ../out)" = '?CANNOT OPEN' ] && grep -q '^tenex: tenex.drum: ' ../messages || fail "a drum that can't be made: status $status, '$(cat ../out ../messages)'"
rmdir tenex.drum
head -c 70000000 /dev/zero | tr '\0' '\377' >tenex.drum
"$program" run --frames 160 <"$top/examples/evicted_byte.script" | cmp -s - "$top/examples/evicted_byte.transcript" || fail "a drum of an earlier run: the transcript is another"
cmp -s tenex.record "$top/examples/evicted_byte.record" || fail "a drum of an earlier run: the record is another"
mkfifo ../lines
"$program" run <../lines >/dev/null &
run=$!
exec {lines}>../lines
printf 'LOGIN 0 A\n' >&"$lines"
for ((tries = 0; tries < 200; tries++)); do
    [ "$(cat tenex.record)" != 'LOGIN 0 A' ] || break
    sleep 0.1
done
mkdir other
ln -s ../tenex.drum other/tenex.drum
(cd other && exec "$program" run) <"$top/examples/first.script" >../out 2>../messages
status=$?
[ "$status" -eq 9 ] && grep -q '^tenex: tenex.drum: another run' ../messages || fail "a drum that another run has: status $status, '$(cat ../out ../messages)'"
exec {lines}>&-
wait "$run" || fail "the run that has the drum: status $?"

if [ "$failures" -ne 0 ]; then
    echo "frames.sh: $failures failures" >&2
    exit 1
fi
echo "frames.sh: $examples examples, evicted, are as before"
