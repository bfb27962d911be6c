#!/usr/bin/env bash
# Runs each example of examples/beside as it is, and without the lines of terminal 0 and those of the clock and the drum, and compares
# what terminal 1 shows: the same where the name begins with apart_, and something else where it begins with shares_. Status 1: it is
# otherwise, and each example of which that is so was printed.
set -u
top=$(cd "$(dirname "$0")/.." && pwd)
program=${1:-$top/build/tenex}
work=$(mktemp -d)
trap 'rm -rf "$work"' EXIT
cases=0
failures=0

fail() {
    echo "beside.sh: FAILED: $*" >&2
    failures=$((failures + 1))
}

[ $# -gt 0 ] || "$top/tenex" build || fail "the build"
[ -x "$program" ] || exit 1
cd "$work" || exit 1

# without: a script without the lines that are not terminal 1's.
without() {
    sed -E '/^(LOGIN|TYPE|POKE|START|EXAMINE|FORKS) 0( |$)/d; /^(TICK|EVICT|DRUM)( |$)/d'
}

# at_1 WORD..: what terminal 1 shows of the script on standard input, its characters joined.
at_1() {
    "$program" "$@" >"$work/transcript" || fail "status $? of $*"
    sed -n -E 's/^T1 //p; /^[FX] 1 /p; /^\?.* 1$/p' "$work/transcript" | tr -d '\n'
}

for script in "$top"/examples/beside/*.script; do
    name=$(basename "${script%.script}")
    words=run
    [ ! -e "${script%.script}.words" ] || words=$(cat "${script%.script}.words")
    without <"$script" >"$work/script"
    # shellcheck disable=SC2086 # the words of a command are separate arguments
    at_1 $words <"$script" >"$work/beside"
    # shellcheck disable=SC2086
    at_1 $words <"$work/script" >"$work/alone"
    [ -s "$work/beside" ] || fail "$name: terminal 1 shows nothing"
    case $name in
        apart_*) cmp -s "$work/beside" "$work/alone" || fail "$name: by itself terminal 1 shows something else" ;;
        shares_*) ! cmp -s "$work/beside" "$work/alone" || fail "$name: by itself terminal 1 shows the same" ;;
        *) fail "$name begins neither with apart_ nor with shares_" ;;
    esac
    cases=$((cases + 1))
done
[ "$cases" -ge 10 ] || fail "there are only $cases examples"

[ "$failures" -eq 0 ] || exit 1
echo "beside.sh: terminal 1 shows what it should in $cases examples, beside others and by itself"
