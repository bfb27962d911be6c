#!/usr/bin/env bash
# Runs the built program with each of its requests of memory refused in turn: that one alone, and then it with all behind it. Each run
# has to end with status 4 and the line ?MEMORY, and to leave nothing in the record, or that of an earlier run. A few requests are made
# once more where they are refused: such a run may be whole, and past the last request it has to be. Status 1: something differs, and each
# difference was printed.
set -u
top=$(cd "$(dirname "$0")/.." && pwd)
program=$top/build/tenex
work=$(mktemp -d)
trap 'rm -rf "$work"' EXIT
cases=0
failures=0

fail() {
    echo "memory.sh: FAILED: $*" >&2
    failures=$((failures + 1))
}

"$top/tenex" build || fail "the build"
[ -x "$program" ] || exit 1

# What stands before the C library: of the program's requests of memory it refuses those with the numbers FIRST_REFUSED to LAST_REFUSED,
# counted from 1, and writes a byte to descriptor 9 for each.
cat >"$work/refusing.c" <<'END'
#include <errno.h>
#include <stddef.h>
#include <stdlib.h>
#include <unistd.h>

void *__libc_malloc(size_t);
void *__libc_calloc(size_t, size_t);
void *__libc_realloc(void *, size_t);
void *__libc_memalign(size_t, size_t);

static long requests;

static int is_refused(void) {
    const char *first = getenv("FIRST_REFUSED");
    const char *last = getenv("LAST_REFUSED");
    if (first == NULL || last == NULL) return 0;
    requests++;
    if (requests < atol(first) || atol(last) < requests || write(9, "x", 1) != 1) return 0;
    errno = ENOMEM;
    return 1;
}

void *malloc(size_t size) { return is_refused() ? NULL : __libc_malloc(size); }
void *calloc(size_t count, size_t size) { return is_refused() ? NULL : __libc_calloc(count, size); }
void *realloc(void *old, size_t size) { return is_refused() ? NULL : __libc_realloc(old, size); }
void *aligned_alloc(size_t align, size_t size) { return is_refused() ? NULL : __libc_memalign(align, size); }
int posix_memalign(void **to, size_t align, size_t size) {
    *to = aligned_alloc(align, size);
    return *to == NULL ? ENOMEM : 0;
}
END
compiler=$(command -v cc || command -v gcc || command -v clang)
if [ -z "$compiler" ]; then
    echo "memory.sh: there is no C compiler here, so refused memory was not tried" >&2
    exit 0
fi
"$compiler" -O1 -fPIC -shared -o "$work/refusing.so" "$work/refusing.c" || { fail "what refuses memory can't be compiled"; exit 1; }

# refuse FIRST LAST WORD..: the program, in a folder with the record of an earlier run and with the standard input of this call, has the
# requests with these numbers refused.
earlier='of an earlier run'
refuse() {
    rm -rf "$work/at" && mkdir "$work/at" && echo "$earlier" >"$work/at/tenex.record"
    local first=$1 last=$2
    shift 2
    (
        cd "$work/at" || exit
        LD_PRELOAD=$work/refusing.so FIRST_REFUSED=$first LAST_REFUSED=$last exec "$program" "$@"
    ) >"$work/out" 2>"$work/messages" 9>"$work/refused"
}

# is_whole STATUS: the run before is whole, and ended with this status.
is_whole() {
    [ "$1" -eq 0 ] && cmp -s "$work/whole" "$work/out" && cmp -s "$work/record" "$work/at/tenex.record"
}

# no_memory NAME STATUS: the run before ended with this status, for want of memory.
no_memory() {
    [ "$2" -eq 4 ] || fail "$1: status $2, '$(head -c 200 "$work/messages")'"
    [ "$(cat "$work/out")" = '?MEMORY' ] || fail "$1: standard output is '$(head -c 200 "$work/out")'"
    [ ! -s "$work/at/tenex.record" ] || [ "$(cat "$work/at/tenex.record")" = "$earlier" ] ||
        fail "$1: the record is '$(head -c 200 "$work/at/tenex.record")'"
}

# tries INPUT WORD..: each request of a command is refused, that one alone and then with all behind it, up to a run that comes to none.
tries() {
    local input=$1 again=0 status number last
    shift
    refuse 0 0 "$@" <"$input" || fail "$*: status $?"
    cp "$work/out" "$work/whole"
    cp "$work/at/tenex.record" "$work/record"
    for last in 0 1000000; do
        for ((number = 1; number < 1000; number++)); do
            refuse "$number" "$((last < number ? number : last))" "$@" <"$input"
            status=$?
            [ -s "$work/refused" ] || break
            cases=$((cases + 1))
            if [ "$last" -eq 0 ] && is_whole "$status"; then
                again=$((again + 1))
            else
                no_memory "$*: request $number" "$status"
            fi
        done
        [ "$number" -gt 5 ] && [ "$again" -le 5 ] || fail "$*: $((number - 1)) requests, of which $again may be refused"
        is_whole "$status" || fail "$*: with all memory: status $status, '$(head -c 200 "$work/out")'"
    done
}

tries "$top/examples/first.script" run --frames 160 --drum 256
tries /dev/null big 7 --frames 160
tries "$top/examples/first.record" replay
tries "$top/examples/first.record" image
tries "$top/examples/factorial.mac" asm 0

if [ "$failures" -ne 0 ]; then
    echo "memory.sh: $failures failures in $cases cases" >&2
    exit 1
fi
echo "memory.sh: $cases cases passed"
