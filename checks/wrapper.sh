#!/usr/bin/env bash
# Compares what the wrapper answers by itself, where nothing is built, with the built program: words that are
# no run have the program's status, standard output, record and usage, and words that are a run are handed on.
# Status 1: something differs, and each difference was printed.
set -u
top=$(cd "$(dirname "$0")/.." && pwd)
program=$top/build/tenex
work=$(mktemp -d)
trap 'rm -rf "$work"' EXIT
cases=0
failures=0

fail() {
    echo "wrapper.sh: FAILED: $*" >&2
    failures=$((failures + 1))
}

"$top/tenex" build || fail "the build"
[ -x "$program" ] || exit 1

# A copy of the wrapper over the source of the usage, with nothing built, and an rt that only says so.
mkdir -p "$work/alone/crates/tenex" "$work/alone/crates/host_side/src" "$work/bin"
cp "$top/tenex" "$work/alone/tenex"
cp "$top/crates/host_side/src/messages.rt" "$work/alone/crates/host_side/src"
printf '#!/bin/sh\necho "rt is asked" >&2\nexit 99\n' >"$work/bin/rt"
chmod +x "$work/bin/rt"

# in_folder NAME COMMAND WORD..: runs it in a folder with an earlier record, and keeps what it leaves.
in_folder() {
    local at=$work/$1
    shift
    rm -rf "$at" && mkdir "$at"
    echo 'of an earlier run' >"$at/tenex.record"
    (cd "$at" && PATH=$work/bin:$PATH exec "$@") </dev/null >"$at/out" 2>"$at/messages"
    echo $? >"$at/status"
}

# same_answer WORD..: no run by the program, and the wrapper says the same.
same_answer() {
    local file
    cases=$((cases + 1))
    in_folder wanted "$program" "$@"
    in_folder found "$work/alone/tenex" "$@"
    [ "$(cat "$work/wanted/status")" = 1 ] || fail "the words '$*' are no wrong words to the program"
    for file in status out tenex.record; do
        diff "$work/wanted/$file" "$work/found/$file" >&2 || fail "the words '$*': $file differs (program, then wrapper)"
    done
    diff "$work/wanted/messages" <(head -n "$(wc -l <"$work/wanted/messages")" "$work/found/messages") >&2 ||
        fail "the words '$*': the usage differs (program, then wrapper)"
}

# said WORDS: the wrapper has said them.
said() {
    grep -q "$1" "$work/found/messages" || fail "the wrapper does not say '$1' but '$(cat "$work/found/messages")'"
}

# handed_on WORD..: a run by the program, and the wrapper hands it on.
handed_on() {
    cases=$((cases + 1))
    in_folder wanted "$program" "$@"
    in_folder found "$work/alone/tenex" "$@"
    [ "$(cat "$work/wanted/status")" = 0 ] || fail "the words '$*' are no run to the program"
    [ "$(cat "$work/found/status")" = 99 ] || fail "the words '$*' are no run to the wrapper"
}

same_answer
same_answer help
same_answer --help
grep -q 'after two to four minutes' "$work/found/messages" || fail "help doesn't say how long a run takes"
same_answer ''
same_answer help ''
same_answer help me
same_answer '' help
same_answer RUN
same_answer run ''
same_answer asm
same_answer asm ''
same_answer asm 16
same_answer asm 000
same_answer asm 0x
same_answer asm -1
same_answer asm 0 0
same_answer asm -- 0
same_answer ASM 0
handed_on asm 0
handed_on asm 07
handed_on asm 15
said 'The POKE lines come'
said 'no contract of them'
said "'checked: ..' and 'run=..'"
same_answer replay ''
same_answer replay 7
same_answer replay help
same_answer replay --help
same_answer replay replay
same_answer replay --
same_answer replay --frames 160
same_answer replay --frames=160
same_answer replay --drum
same_answer replay --drum=
same_answer replay --drum ''
same_answer replay --drum 255
same_answer replay --drum 16385
same_answer replay --drum=16385
same_answer replay --drum 0000000256
same_answer replay --drum=256 --drum=256
same_answer replay --drum 256 --drum 256
same_answer replay --drum 256 7
same_answer replay 7 --drum=256
same_answer REPLAY
handed_on replay
said 'the record is played'
said 'no contract of them'
said "'checked: ..' and 'run=..'"
handed_on replay --drum 256
handed_on replay --drum=16384
handed_on replay --drum 000000256
same_answer image ''
same_answer image 7
same_answer image image
same_answer image --frames=160
same_answer image --drum 255
same_answer image --drum=256 --drum=256
same_answer IMAGE
handed_on image
said 'the record is played'
handed_on image --drum 256
handed_on image --drum=16384
same_answer run help
same_answer run --help
same_answer run run
same_answer run --
same_answer -- run
same_answer run -- --frames 160
same_answer run --frames
same_answer run --frames=
same_answer run --frames ''
same_answer run --frames 159
same_answer run --frames 8193
same_answer run --frames=159
same_answer run --drum 255
same_answer run --drum 16385
same_answer run --drum=16385
same_answer run --frames 160 --frames 160
same_answer run --frames=160 --drum 256 --frames 160
same_answer run --frames --drum 256
same_answer run --frames 160 256
same_answer run --frames 0000000160
same_answer run --frames +160
same_answer run --frames -160
same_answer run --frames 0x100
same_answer run --frames 160K
same_answer run --frames ' 160'
same_answer run --frames $'160\n'
same_answer run --frames ٣٣٣
same_answer run --frame 160
same_answer run -frames 160
same_answer run --Frames 160
same_answer run --drum 999999999
same_answer run --drum 18446744073709551872
same_answer $'run\xff'
same_answer run --drum $'256\xff'
same_answer big
same_answer big ''
same_answer big --frames 160
same_answer big 7 8
same_answer big 0000000007
same_answer big 7x
same_answer big -7
same_answer big -
same_answer big --seed=7
same_answer big 7 --
same_answer big -- 7
same_answer big 7 --frames 159
same_answer big 7 --drum
same_answer BIG 7
same_answer run 7
same_answer run 7 --frames 160
handed_on big 7
handed_on big --frames 160 007
handed_on big --frames=160 999999999 --drum 256
handed_on run
said 'The transcript comes'
said 'No tenex.record is kept'
handed_on run --frames 160
handed_on run --frames 8192 --drum 16384
handed_on run --drum=256 --frames=000000160
handed_on run --drum 08192 --frames 0777

# A record that can't be made.
cases=$((cases + 1))
for name in wanted found; do
    rm -rf "${work:?}/$name" && mkdir -p "$work/$name/tenex.record"
done
(cd "$work/wanted" && exec "$program" run --frames 1) >"$work/wanted/out" 2>"$work/wanted/messages"
echo $? >"$work/wanted/status"
(cd "$work/found" && exec "$work/alone/tenex" run --frames 1) >"$work/found/out" 2>"$work/found/messages"
echo $? >"$work/found/status"
for file in status out; do
    diff "$work/wanted/$file" "$work/found/$file" >&2 || fail "a record that can't be made: $file differs (program, then wrapper)"
done
grep -q '^tenex: tenex.record: ' "$work/found/messages" || fail "a record that can't be made: '$(cat "$work/found/messages")'"

if [ "$failures" -ne 0 ]; then
    echo "wrapper.sh: $failures failures in $cases cases" >&2
    exit 1
fi
echo "wrapper.sh: $cases cases passed"
