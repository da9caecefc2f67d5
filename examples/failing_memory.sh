#!/bin/bash
# Makes each allocation of a run fail in turn, and prints how many there are and how the program ended each time:
#     examples/failing_memory.sh [INPUT..]
# A small library replaces malloc, calloc and realloc, counts these calls, and refuses the one with that number.
# Without an INPUT the runs are three lists of calls, one of `gen`, one of scripts and one of sources. Each run must
# end out of memory with nothing written, or successfully with its whole output, which is unchanged or reports a
# refusal. Otherwise the script exits with 1.
set -euo pipefail
here=$(dirname "$(readlink -f "$0")")
work=$(mktemp -d)
trap 'rm -rf "$work"' EXIT
program=$("$here/../tools/program.sh" arena_run --version)

cat > "$work/fail.c" <<'C'
#define _GNU_SOURCE
#include <dlfcn.h>
#include <fcntl.h>
#include <stdlib.h>
#include <sys/mman.h>
#include <unistd.h>
static long refused, own, *calls = &own;
// The count lies in a file, if one is named, so that it is there however the program ends.
__attribute__((constructor)) static void begin(void) {
    const char *n = getenv("FAIL_ALLOC"), *name = getenv("COUNT_ALLOC");
    int file = name ? open(name, O_RDWR | O_CREAT | O_TRUNC, 0600) : -1;
    if (file >= 0 && ftruncate(file, sizeof own) == 0) {
        void *at = mmap(NULL, sizeof own, PROT_READ | PROT_WRITE, MAP_SHARED, file, 0);
        calls = at == MAP_FAILED ? &own : at;
    }
    refused = n ? atol(n) : 0;
    *calls = 0;
}
static int refuses(void) { return __atomic_add_fetch(calls, 1, __ATOMIC_RELAXED) == refused; }
#define REAL(name) static __typeof__(name) *real; if (!real) real = dlsym(RTLD_NEXT, #name)
void *malloc(size_t n) { REAL(malloc); return refuses() ? NULL : real(n); }
void *realloc(void *p, size_t n) { REAL(realloc); return refuses() ? NULL : real(p, n); }
extern void *__libc_calloc(size_t, size_t);
void *calloc(size_t k, size_t n) { return refuses() ? NULL : __libc_calloc(k, n); }
C
cc -O1 -shared -fPIC -o "$work/fail.so" "$work/fail.c" -ldl

# runs NAME INPUT WORD..: makes each allocation of the program fail, with these words and this input.
runs() {
    local name=$1 input=$2 n what status all
    shift 2
    COUNT_ALLOC=$work/count LD_PRELOAD=$work/fail.so "$program" "$@" < "$input" > "$work/whole"
    all=$(od -An -tu8 "$work/count" | tr -d ' ')
    declare -A ends=()
    for n in $(seq 1 "$all"); do
        status=0
        FAIL_ALLOC=$n LD_PRELOAD=$work/fail.so "$program" "$@" < "$input" > "$work/text" 2> "$work/line" || status=$?
        if [ "$status" != 0 ]; then
            what="$status, $(cat "$work/line"), $(wc -c < "$work/text") bytes written"
            [ "$what" = "3, out of memory, 0 bytes written" ] || failed=1
        elif cmp -s "$work/text" "$work/whole"; then
            what="0, all replies"
        else
            what="0, a chunk was refused: $(tr '\n' ';' < "$work/text")"
            # A summary shows a refusal by the bytes of the arena, a script by its end, a source by its report.
            case $1 in
            gen) [ "$(wc -l < "$work/text")" = 8 ] || failed=1 ;;
            lint) grep -qx 'refused\|out of memory' "$work/text" || failed=1 ;;
            scripts) grep -qx 'ended refused\|ended out of memory' "$work/text" || failed=1 ;;
            *) [ "$(wc -l < "$work/text")" = "$(wc -l < "$work/whole")" ] && grep -q 'refused [1-9]' "$work/text" || failed=1 ;;
            esac
        fi
        ends[$what]="${ends[$what]:-} $n"
    done
    echo "$name, $all allocations:"
    for what in "${!ends[@]}"; do
        echo "    allocations${ends[$what]}: status $what"
    done
}

failed=0
if [ $# -gt 0 ]; then
    for input in "$@"; do
        runs "$(basename "$input")" "$input" calls
    done
else
    for input in first grow_and_shrink further_chunks; do
        runs "$input.txt" "$here/calls/$input.txt" calls
    done
    runs "gen 1 400" /dev/null gen 1 400
    runs "first.txt (scripts)" "$here/scripts/first.txt" scripts 1
    runs "first.txt (lint)" "$here/lint/first.txt" lint 1
fi
exit $failed
