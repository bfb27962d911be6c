#!/usr/bin/env bash
# Runs the built program where what is around it fails or stands in its way while pages are on the drum: disks that are full, files and
# folders that may not be written, other things in the place of the drum, pipes that close, signals, and several runs at once. None may
# end with status 0 and a text that isn't the whole one. Status 1: something differs, and each difference was printed.
set -u
top=$(cd "$(dirname "$0")/.." && pwd)
work=$(mktemp -d)
mounted=
trap 'for at in $mounted; do umount "$at"; done; rm -rf "$work"' EXIT
chmod 755 "$work"
cases=0
failures=0

fail() {
    echo "edges.sh: FAILED: $*" >&2
    failures=$((failures + 1))
}

"$top/tenex" build || fail "the build"
[ -x "$top/build/tenex" ] || exit 1
cp "$top/build/tenex" "$work/program" && chmod 755 "$work/program" || exit 1

# Makes the folder of the next case, which anyone may write.
fresh() {
    rm -rf "$work/at" && mkdir "$work/at" && chmod 777 "$work/at"
}

# run WORD..: the program in the folder made by fresh. It takes the standard input and the user of this call.
as=
run() {
    # shellcheck disable=SC2086 # the words that run it as another user, or none
    (cd "${folder:-$work/at}" && exec $as "$work/program" run --frames 160 "$@") >"$work/out" 2>"$work/messages"
}

# ended NAME STATUS OUT MESSAGE: the run before ended with this status, standard output has these bytes, as printf's %b writes them, and
# standard error begins with this message, or is empty where that is.
ended() {
    local found=$?
    cases=$((cases + 1))
    [ "$found" -eq "$2" ] || fail "$1: status $found, wanted $2"
    printf '%b' "$3" | cmp -s - "$work/out" || fail "$1: standard output is '$(head -c 200 "$work/out")'"
    [ -z "$4" ] && [ ! -s "$work/messages" ] || [ -n "$4" ] && [ "$(head -c ${#4} "$work/messages")" = "$4" ] ||
        fail "$1: standard error is '$(cat "$work/messages")', wanted '$4 ..'"
}

# refused NAME FILE: the run before ended with 9, for this file.
refused() {
    ended "$1" 9 '?CANNOT OPEN\n' "tenex: $2: "
}

# front NAME RECORD WHOLE: this record is a front of the whole one, and not all of it.
front() {
    local size
    size=$(wc -c <"$2")
    [ "$size" -lt "$(wc -c <"$3")" ] && cmp -s -n "$size" "$2" "$3" || fail "$1: the record of $size bytes is no front"
}

# lines NAME RECORD: a record ends at the end of a line.
lines() {
    [ -z "$(tail -c 1 "$2")" ] || fail "$1: the record ends within a line"
}

# A word in each of 300 pages, of which 160 have a frame; and what comes of it.
{
    echo 'LOGIN 0 A'
    for ((page = 1; page <= 300; page++)); do printf 'POKE 0 %o 1\n' $((page * 512)); done
    echo 'EXAMINE 0 1 1000'
} >"$work/wide"
whole='T0 @\nX 0 1 001000 000000000001\n'
{ cat "$work/wide" && echo 'E 1 142'; } >"$work/record"
# done_right NAME: the run before is done, and both texts are whole.
done_right() {
    ended "$1" 0 "$whole" ''
    cmp -s "$work/record" "$work/at/tenex.record" || fail "$1: the record ends with '$(tail -n 1 "$work/at/tenex.record")'"
}
fresh
run <"$work/wide"
done_right "pages on the drum"

# A file system of four pages, for the drum alone and for the drum with the record, and one that may not be written.
mkdir "$work/small" "$work/still"
if mount -t tmpfs -o size=16k,mode=777 tmpfs "$work/small" 2>"$work/messages"; then
    mounted="$work/small"
    fresh
    ln -s "$work/small/tenex.drum" "$work/at/tenex.drum"
    run <"$work/wide"
    ended "a file system that is full for the drum" 3 'T0 @\n?DRUM\n' 'tenex: the drum failed'
    grep -q '^tenex: tenex.drum: .*[Nn]o space' "$work/messages" || fail "a file system that is full for the drum: '$(cat "$work/messages")'"
    front "a file system that is full for the drum" "$work/at/tenex.record" "$work/record"
    lines "a file system that is full for the drum" "$work/at/tenex.record"
    rm "$work/small/tenex.drum"
    folder=$work/small
    run <"$work/wide"
    status=$?
    cases=$((cases + 1))
    [ "$status" -eq 3 ] || [ "$status" -eq 6 ] || fail "a file system that is full for drum and record: status $status"
    front "a file system that is full for drum and record" "$work/small/tenex.record" "$work/record"
    grep -vxF '?DRUM' "$work/out" | cmp -s - <(echo 'T0 @') || fail "a file system that is full for drum and record: '$(cat "$work/out")'"
    if mount -t tmpfs -o ro tmpfs "$work/still"; then
        mounted="$mounted $work/still"
        folder=$work/still
        run <"$work/wide"
        refused "a file system that may not be written" tenex.record
        folder=
        fresh
        ln -s "$work/still/tenex.drum" "$work/at/tenex.drum"
        run <"$work/wide"
        refused "a drum on a file system that may not be written" tenex.drum
    fi
    folder=
else
    echo "edges.sh: no file system can be mounted here, so a full one was not tried" >&2
fi

# Folders and files that may not be written, as a user who isn't the superuser.
[ "$(id -u)" -ne 0 ] || as='setpriv --reuid 65534 --regid 65534 --clear-groups'
if $as true 2>"$work/messages"; then
    fresh
    chmod 555 "$work/at"
    run <"$work/wide"
    refused "a folder that may not be written" tenex.record
    for file in tenex.record tenex.drum; do
        for mode in 444 000; do
            fresh
            echo 'of an earlier run' >"$work/at/$file"
            chmod "$mode" "$work/at/$file"
            run <"$work/wide"
            refused "$file with mode $mode" "$file"
            [ "$(cat "$work/at/$file" 2>/dev/null || echo 'of an earlier run')" = 'of an earlier run' ] || fail "$file with mode $mode: it is written"
        done
    done
    fresh
    : >"$work/at/tenex.drum"
    chmod 222 "$work/at/tenex.drum"
    [ "$(id -u)" -ne 0 ] || chown 65534 "$work/at/tenex.drum"
    run <"$work/wide"
    refused "a drum that may not be read" tenex.drum
else
    echo "edges.sh: nobody else can run the program here, so files that may not be written were not tried: $(cat "$work/messages")" >&2
fi
as=

# In the place of the drum: a folder, devices and a pipe.
fresh
mkdir "$work/at/tenex.drum"
run <"$work/wide"
refused "a folder in the place of the drum" tenex.drum
for device in null zero full; do
    fresh
    ln -s "/dev/$device" "$work/at/tenex.drum"
    run <"$work/wide"
    refused "/dev/$device in the place of the drum" tenex.drum
    [ ! -s "$work/at/tenex.record" ] || fail "/dev/$device in the place of the drum: there is a record"
done
fresh
mkfifo "$work/at/tenex.drum"
run <"$work/wide"
refused "a pipe in the place of the drum" tenex.drum

# Links: to a file, to one that is made, to none that can be made, to itself, and to the record.
fresh
head -c 100000 /dev/urandom >"$work/elsewhere"
ln -s ../elsewhere "$work/at/tenex.drum"
run <"$work/wide"
done_right "a drum that is a link"
[ "$(wc -c <"$work/elsewhere")" -eq 67108864 ] || fail "a drum that is a link: it stands elsewhere"
fresh
rm "$work/elsewhere"
ln -s ../elsewhere "$work/at/tenex.drum"
run <"$work/wide"
done_right "a drum that is a link to a file that is made"
[ -f "$work/elsewhere" ] || fail "a drum that is a link to a file that is made: it isn't"
fresh
ln -s ../nowhere/tenex.drum "$work/at/tenex.drum"
run <"$work/wide"
refused "a drum that is a link to nothing" tenex.drum
fresh
ln -s tenex.drum "$work/at/tenex.drum"
run <"$work/wide"
refused "a drum that is a link to itself" tenex.drum
for link in 'ln -s' ln; do
    fresh
    : >"$work/at/tenex.record"
    $link "$work/at/tenex.record" "$work/at/tenex.drum"
    run <"$work/wide"
    refused "a drum that is the record, by $link" tenex.drum
done

# A drum of an earlier run that is too short, or too long, or full of bytes that are no words.
for bytes in 0 1 4095 4097 67108865; do
    fresh
    head -c "$bytes" /dev/zero | tr '\0' '\377' >"$work/at/tenex.drum"
    run <"$work/wide"
    done_right "a drum of an earlier run with $bytes bytes"
done

# begin starts a run whose script is fed in parts. feed LINE: the part that this call reads, of which the record has this line last by then.
# finish: the last part, and how the run ends.
begin() {
    fresh
    rm -f "$work/lines" && mkfifo "$work/lines"
    run <"$work/lines" &
    running=$!
    exec {feeding}>"$work/lines"
}
feed() {
    cat >&"$feeding"
    for ((tries = 0; tries < 200; tries++)); do
        [ "$(tail -n 1 "$work/at/tenex.record" 2>/dev/null)" != "$1" ] || return
        sleep 0.1
    done
    fail "a run that is fed: it does not come to '$1'"
}
finish() {
    cat >&"$feeding"
    exec {feeding}>&-
    wait "$running"
}

# What happens to the drum while a run is at work: it is filled with what are no words, and its name is taken away.
last_poke=$(tail -n 2 "$work/wide" | head -n 1)
begin
feed "$last_poke" < <(head -n -1 "$work/wide")
head -c 67108864 /dev/zero | tr '\0' '\377' | dd of="$work/at/tenex.drum" conv=notrunc status=none
finish < <(tail -n 1 "$work/wide")
ended "a drum that is filled with what are no words" 3 'T0 @\n?DRUM\n' 'tenex: the drum failed'
grep -q '^tenex: tenex.drum: ' "$work/messages" || fail "a drum that is filled with what are no words: '$(cat "$work/messages")'"
front "a drum that is filled with what are no words" "$work/at/tenex.record" "$work/record"
begin
feed "$last_poke" < <(head -n -1 "$work/wide")
rm "$work/at/tenex.drum"
finish < <(tail -n 1 "$work/wide")
done_right "a drum whose name is taken away"

# A program that stores a word in each page, again and again: MOVEM 1,0(1), ADDI 1,1000 and JRST 100.
printf 'LOGIN 0 A\nPOKE 0 1 1000\nPOKE 0 100 202041000000\nPOKE 0 101 271040001000\nPOKE 0 102 254000000100\nSTART 0 100\nRUN 100001\nEXAMINE 0 1 100\n' >"$work/front"
shown='T0 @\nX 0 1 000100 202041000000\n'
fresh
run <"$work/front"
ended "a program that stores in each page" 0 "$shown" ''
sed -n 's/^E [0-9]* //p' "$work/at/tenex.record" | grep -q '[0-9]\{4\}' || fail "a program that stores in each page: the drum is hardly written, '$(tail -n 1 "$work/at/tenex.record")'"
grep -v '^E ' "$work/at/tenex.record" >"$work/front_record"
{ cat "$work/front" && yes 'RUN 1000000' | head -n 100000; } >"$work/long"
for signal in TERM INT HUP; do
    fresh
    # (a command in the background of a script ignores INT, and HUP where the script does, but for env)
    (cd "$work/at" && exec env --default-signal=INT,HUP "$work/program" run --frames 160) <"$work/long" >"$work/out" 2>"$work/messages" &
    running=$!
    for ((tries = 0; tries < 300; tries++)); do
        ! grep -q '^EXAMINE' "$work/at/tenex.record" 2>/dev/null || break
        sleep 0.1
    done
    kill -"$signal" "$running"
    wait "$running" 2>/dev/null
    [ $? -gt 128 ] || fail "a run with pages on the drum that is stopped by $signal: it goes on"
    cases=$((cases + 1))
    printf '%b' "$shown" | cmp -s - "$work/out" || fail "a run with pages on the drum that is stopped by $signal: its transcript is '$(head -c 200 "$work/out")'"
    head -n "$(wc -l <"$work/front_record")" "$work/at/tenex.record" | cmp -s - "$work/front_record" && lines "$signal" "$work/at/tenex.record" ||
        fail "a run with pages on the drum that is stopped by $signal: its record is '$(head -c 300 "$work/at/tenex.record")'"
done
# The folder of a run that was stopped serves the next one.
run <"$work/wide"
done_right "a run behind one that was stopped"

# A transcript that nobody reads any more, while pages are on the drum.
{ cat "$work/front" && yes 'EXAMINE 0 1 100' | head -n 50000; } >"$work/script"
fresh
run <"$work/script"
cp "$work/at/tenex.record" "$work/whole"
fresh
(cd "$work/at" && { "$work/program" run --frames 160 2>"$work/messages"; echo $? >"$work/status"; } | head -c 4 >/dev/null) <"$work/script"
cases=$((cases + 1))
[ "$(cat "$work/status")" = 6 ] || fail "a transcript that nobody reads any more: status $(cat "$work/status")"
grep -q '^tenex: standard output: ' "$work/messages" || fail "a transcript that nobody reads any more: '$(cat "$work/messages")'"
front "a transcript that nobody reads any more" "$work/at/tenex.record" "$work/whole"

# Runs at once in one folder: each is done or refused, one at least is done, and the record is the whole one.
for ((round = 0; round < 5; round++)); do
    fresh
    runs=()
    for ((one = 0; one < 4; one++)); do
        (cd "$work/at" && exec "$work/program" run --frames 160) <"$work/wide" >"$work/out.$one" 2>/dev/null &
        runs+=($!)
    done
    right=0
    for one in "${!runs[@]}"; do
        wait "${runs[$one]}"
        status=$?
        case $status in
            0) right=$((right + 1)); wanted=$whole ;;
            9) wanted='?CANNOT OPEN\n' ;;
            *) fail "runs at once: status $status"; continue ;;
        esac
        printf '%b' "$wanted" | cmp -s - "$work/out.$one" || fail "runs at once: status $status with '$(cat "$work/out.$one")'"
    done
    cases=$((cases + 1))
    [ "$right" -ge 1 ] && cmp -s "$work/record" "$work/at/tenex.record" || fail "runs at once: $right are done, and the record ends with '$(tail -n 1 "$work/at/tenex.record")'"
done

if [ "$failures" -ne 0 ]; then
    echo "edges.sh: $failures failures in $cases cases" >&2
    exit 1
fi
echo "edges.sh: $cases cases passed"
