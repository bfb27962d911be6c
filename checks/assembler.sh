#!/usr/bin/env bash
# Assembles each program of the examples anew with the built program, and compares its words with those that the script beside it
# puts; and runs the assembler into each way in which it ends. Status 1: something differs, and each difference was printed.
set -u
top=$(cd "$(dirname "$0")/.." && pwd)
program=${1:-$top/build/tenex}
work=$(mktemp -d)
trap 'rm -rf "$work"' EXIT
cases=0
failures=0

fail() {
    echo "assembler.sh: FAILED: $*" >&2
    failures=$((failures + 1))
}

[ $# -gt 0 ] || "$top/tenex" build || fail "the build"
[ -x "$program" ] || exit 1

# The words that a script puts, a line each: 'I address word' for an instruction, as the comment above it says, and 'W address word' for
# another. The words of a file stand at their places in it.
puts() {
    awk '
        function value(octal,  n, i) { n = 0; for (i = 1; i <= length(octal); i++) n = n * 8 + substr(octal, i, 1); return n }
        function plain(octal) { sub(/^0+/, "", octal); return octal == "" ? "0" : octal }
        function put(address, word) { print (address in said ? "I" : "W"), address, plain(word) }
        /^; [0-7]+  [A-Z]+( [0-7@(,][^ ]*)?( *;.*)?$/ { said[plain($2)] = 1; next }
        /^;/ { next }
        $1 == "POKE" { put(plain($3), $4) }
        $1 == "WORDS" { for (i = 5; i <= NF; i++) put(sprintf("%o", value($3) * 512 + value($4) + i - 5), $i) }
        { split("", said) }' "$1"
}

# Each program has words that its script puts, and each instruction that a script puts is one of its programs: NAME.mac, and NAME_t.mac for
# terminal t where that has another.
programs=0
for script in "$top"/examples/*.script "$top"/examples/*/*.script; do
    name=${script%.script}
    puts "$script" >"$work/puts"
    cut -d ' ' -f 2- "$work/puts" | sort -u >"$work/all"
    sed -n 's/^I //p' "$work/puts" | sort -u >"$work/instructions"
    : >"$work/assembled"
    for text in "$name".mac "$name"_[0-9].mac "$name"_[0-9][0-9].mac; do
        [ -e "$text" ] || continue
        "$program" asm 0 <"$text" >"$work/found" || fail "${text#"$top"/}: status $?, $(cat "$work/found")"
        cut -d ' ' -f 3- "$work/found" >>"$work/assembled"
        programs=$((programs + 1))
    done
    sort -u "$work/assembled" -o "$work/assembled"
    comm -13 "$work/all" "$work/assembled" | grep . >&2 && fail "${name#"$top"/}: these words of its programs are not those of the script"
    comm -13 "$work/assembled" "$work/instructions" | grep . >&2 && fail "${name#"$top"/}: no program has these instructions of the script"
done
[ "$programs" -ge 100 ] || fail "there are only $programs programs"
for text in "$top"/examples/*.mac "$top"/examples/*/*.mac; do
    name=${text%.mac}
    [ -e "$name.script" ] || [ -e "${name%_*}.script" ] || fail "${text#"$top"/}: no script is beside it"
done

# ends STATUS OUT SAID WORD..: on the text on standard input the program ends with that status, and has written these bytes (as
# printf's %b writes them); standard error begins with the text of SAID, and is empty where that is; no file is made.
ends() {
    local status=$1 out=$2 said=$3 found
    shift 3
    cases=$((cases + 1))
    rm -rf "$work/at" && mkdir "$work/at"
    (cd "$work/at" && exec "$program" "$@") >"$work/out" 2>"$work/messages"
    found=$?
    [ "$found" -eq "$status" ] || fail "the words '$*': status $found, wanted $status"
    printf '%b' "$out" | cmp -s - "$work/out" || fail "the words '$*': '$(cat "$work/out")', wanted '$out'"
    if [ "$(head -c ${#said} "$work/messages")" != "$said" ] || [ -z "$said" -a -s "$work/messages" ]; then
        fail "the words '$*': standard error is not '$said ..' but '$(cat "$work/messages")'"
    fi
    [ -z "$(ls "$work/at")" ] || fail "the words '$*': a file was made"
}

letter=' LOC 100\nSTART: MOVEI 1,101\n PBOUT\n HALTF\n'
ends 0 'POKE 0 100 201040000101\nPOKE 0 101 104000000074\nPOKE 0 102 104000000170\n' '' asm 0 < <(printf '%b' "$letter")
ends 0 'POKE 15 100 201040000101\nPOKE 15 101 104000000074\nPOKE 15 102 104000000170\n' '' asm 15 < <(printf '%b' "$letter")
ends 0 'POKE 0 0 406040000000\n' '' asm 0 < <(printf 'A: ASCIZ "AB"\n')
ends 0 '' '' asm 0 </dev/null
ends 10 '?UNDEFINED B\n' 'tenex: the symbol B ' asm 0 < <(printf ' JRST B\n')
ends 10 '?DOUBLED A\n' 'tenex: the symbol A ' asm 0 < <(printf 'A: HALTF\nA: HALTF\n')
ends 10 '?LINE 2\n' 'tenex: line 2 is no line of a program:  HALT' asm 0 < <(printf ' HALTF\n HALT\n')
ends 10 '?LINE 1\n' $'tenex: line 1 is no line of a program: \tHALT' asm 0 < <(printf '\tHALT\n')
ends 10 '?LINE 1\n' 'tenex: line 1 is no line of a program: it has bytes that are not printed' asm 0 < <(printf ' HALTF\r\n')
ends 10 '?LINE 2\n' 'tenex: line 2 has more than 256 bytes' asm 0 < <(printf ' HALTF\n;%256d\n' 0)
ends 10 '?LINE 1\n' 'tenex: line 1 does not end with a line feed' asm 0 < <(printf ' HALTF')
ends 10 '?LINE 9000\n' 'tenex: line 9000 is no line of a program: HALT ' asm 0 < <(yes ' HALTF' | head -n 8999; echo 'HALT ')
ends 10 '?OVERRUN 3\n' 'tenex: a word or the label of line 3 ' asm 0 < <(printf ' LOC 777777\n HALTF\n HALTF\n')
for words in 'asm' 'asm 16' 'asm 000' 'asm 0 0' 'asm -- 0' 'asm x'; do
    # shellcheck disable=SC2086 # the words of a command are separate arguments
    ends 1 '?USAGE\n' 'usage: tenex run' $words < <(printf '%b' "$letter")
done
ends 5 '?READ\n' 'tenex: standard input: ' asm 0 <"$work"
ends 7 '?LONG SCRIPT\n' 'tenex: the program has more than 1048576 bytes' asm 0 < <(yes '' | head -c 1048577)
ends 0 '' '' asm 0 < <(yes '' | head -c 1048576)
cases=$((cases + 1))
(cd "$work" && printf '%b' "$letter" | "$program" asm 0) >/dev/full 2>"$work/messages"
found=$?
[ "$found" -eq 6 ] || fail "no room for the lines: status $found, wanted 6"

# What is assembled is a script, or part of one.
cases=$((cases + 1))
{ echo 'LOGIN 0 SMITH'; printf '%b' "$letter" | "$program" asm 0; printf 'START 0 100\nRUN 5\n'; } >"$work/script"
(cd "$work" && "$program" run <script) >"$work/out" && printf 'T0 @A\\015\\012\nT0 @\n' | cmp -s - "$work/out" || fail "the assembled script does not run"

if [ "$failures" -gt 0 ]; then
    echo "assembler.sh: $failures failures in $programs programs and $cases cases" >&2
    exit 1
fi
echo "assembler.sh: $programs programs and $cases cases passed"
