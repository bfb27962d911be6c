#!/usr/bin/env bash
# Runs run-mac with the built program: with the program of an example and its script it makes the lines of that script, for each example
# whose program it can put in; and with a program alone a script of its own, of which it shows the terminal. Status 1: something differs, and each difference was printed.
set -u
top=$(cd "$(dirname "$0")/.." && pwd)
work=$(mktemp -d)
trap 'rm -rf "$work"' EXIT
cases=0
failures=0

fail() {
    echo "run_mac.sh: FAILED: $*" >&2
    failures=$((failures + 1))
}

"$top/tenex" build || fail "the build"
cd "$work" || exit 1

# The events of a script, their numbers without zeros in front.
events() {
    sed -E '/^;/d; /^$/d; s/ 0+([0-7])/ \1/g'
}

# Programs that stand in files, which run-mac refuses, and those of which a script puts one in the place of another or behind a START.
in_files=' backwards hello hello_words run_again session '
by_parts=' command_rows errors interrupt_codes interrupt_rows patch thirty_maps typing_rows division_by_zero sixteen_references '

# Each other example with a program is made of it: the program of the terminal that has the first POKE or START.
for script in "$top"/examples/*.script "$top"/examples/*/*.script; do
    name=$(basename "$script" .script)
    terminal=$(sed -nE '/^(POKE|START) /{s/[A-Z]+ ([0-9]+) .*/\1/p;q;}' "$script")
    text=${script%.script}_$terminal.mac
    [ -e "$text" ] || text=${script%.script}.mac
    [ -e "$text" ] || continue
    case $in_files in *" $name "*) continue ;; esac
    cases=$((cases + 1))
    "$top/run-mac" --script "$text" "$script" | events >"$work/found"
    events <"$script" >"$work/wanted"
    case $by_parts in
        *" $name "*) cmp -s "$work/wanted" "$work/found" && fail "${text#"$top"/}: the script is made of it, so it is no exception" ;;
        *) diff "$work/wanted" "$work/found" >&2 || fail "${text#"$top"/}: the script that is made is not the one beside it (wanted, then found)" ;;
    esac
done
[ "$cases" -ge 140 ] || fail "only $cases scripts were made"

# shows WANTED STATUS WORD..: what run-mac prints (as printf's %b writes it), and its status.
shows() {
    local wanted=$1 status=$2 found
    shift 2
    cases=$((cases + 1))
    "$top/run-mac" "$@" >"$work/out" 2>"$work/messages"
    found=$?
    [ "$found" -eq "$status" ] || fail "the words '$*': status $found, wanted $status"
    printf '%b' "$wanted" | diff - "$work/out" >&2 || fail "the words '$*': another text (wanted, then found)"
}

shows '@3628800\n@\nF 0 1 0 HALT PC 000105\n' 0 "$top/examples/factorial.mac"
shows '@\n@\nF 0 1 0 HALT PC 000103\n' 0 "$top/examples/first.mac" 102 1
printf ' LOC 100\nDATA: WORD 101\nSTART: MOVE 1,DATA\n PBOUT\n HALTF\n' >begins.mac
shows '@A\n@\nF 0 1 0 HALT PC 000104\n' 0 begins.mac
printf 'LOGIN 0 A\nPOKE 0 100 0\nSTART 0 101\nRUN 2\nEXAMINE 0 1 1\n' >begins.script
shows '@A\nX 0 1 000001 000000000101\n' 0 begins.mac begins.script
printf ' HALT\n' >bad.mac
shows '' 10 bad.mac
grep -q '^tenex: line 1 is no line of a program:  HALT$' messages || fail "a bad line is not shown, but '$(cat messages)'"

# refused SAID WORD..: run-mac runs nothing, and its one line on standard error says why.
refused() {
    local said=$1
    shift
    shows '' 1 "$@"
    printf 'run-mac: %s\n' "$said" | diff - messages >&2 || fail "the words '$*': another reason (wanted, then found)"
}

refused "'108' is no address of 1 to 6 octal digits" begins.mac 108
refused "'' is no address of 1 to 6 octal digits" begins.mac ''
refused "'1000000' is no address of 1 to 6 octal digits" begins.mac 1000000
refused "'x' is no number of turns of 1 to 7 decimal digits" begins.mac 100 x
refused "'10000000' is no number of turns of 1 to 7 decimal digits" begins.mac 100 10000000
refused 'there is no file absent.mac' absent.mac
refused "begins.script is a script and no program: './tenex run < begins.script' runs it" begins.script
refused 'there is no file absent.script' begins.mac absent.script
refused 'begins.txt is neither an octal address nor a script, whose name ends in .script' begins.mac begins.txt
printf 'FILE <A>P.SAV\nWORDS <A>P.SAV 0 120 140\nLOGIN 0 A\nTYPE 0 RUN P\\015\nRUN 10\n' >filed.script
refused 'filed.script has neither a POKE nor a START line, so the program has no place in it' begins.mac filed.script
echo 'POKE 0 2000 1' >>filed.script
refused 'filed.script has no START line, and its program is in a file, which run-mac does not change' begins.mac filed.script
for words in '' --help --script 'begins.mac 101 1 1' 'begins.mac begins.script 1'; do
    # shellcheck disable=SC2086 # the words of a command are separate arguments
    shows '' 1 $words
    grep -q '^usage: run-mac ' messages || fail "the words '$words': no usage, but '$(cat messages)'"
done

if [ "$failures" -ne 0 ]; then
    echo "run_mac.sh: $failures failures in $cases cases" >&2
    exit 1
fi
echo "run_mac.sh: $cases cases passed"
