#!/bin/bash
# Runs the program to each of its exit statuses, over the real standard streams, and compares the status, the output,
# and the line on standard error with the table in docs/CLI.md.
set -u
here=$(dirname "$(readlink -f "$0")")
work=$(mktemp -d)
trap 'rm -rf "$work"' EXIT
program=$("$here/../tools/program.sh" arena_run --version) || exit 1
failed=0

# Prints the line that docs/CLI.md has for this status, with a number in place of N. In a table a bar follows a
# backslash.
line_for() {
    sed -n "s/^| $1 |.*| \`\([^\`]*\)\` |\$/\1/p" "$here/../docs/CLI.md" | sed "s/ N / ${2:-N} /; s/\\\\|/|/g"
}

# ends NAME STATUS TEXT [LINE NUMBER]: checks the run that has just ended. Its status is in `status`, and its output
# in the files `out` and `err`; TEXT is a file.
ends() {
    line_for "$2" "${4:-}" > "$work/line"
    if [ "$status" = "$2" ] && cmp -s "$work/out" "$3" && cmp -s "$work/err" "$work/line"; then
        echo "ok   $1"
    else
        echo "FAIL $1: status $status, $(wc -c < "$work/out") bytes written, $(head -c 200 "$work/err")"
        failed=1
    fi
}

# Runs the program with these words, over this function's standard input.
run() {
    status=0
    "$program" "$@" > "$work/out" 2> "$work/err" || status=$?
}

none=/dev/null
first=$here/calls/first.txt
replies=$here/calls/first.replies

# 0: all was read, run and written.
run calls < "$first"
ends "0, calls" 0 "$replies"
{ head -c 20 "$first"; sleep 0.2; tail -c +21 "$first"; } | "$program" calls > "$work/out" 2> "$work/err"
status=$?
ends "0, calls in two pieces" 0 "$replies"
run calls < /dev/null
ends "0, no calls" 0 $none
head -c 16777216 /dev/zero | tr '\0' '\n' > "$work/longest"
run calls < "$work/longest"
ends "0, 16,777,216 bytes" 0 $none
run gen 0 1 < "$work"
printf '%s\n' 'calls 1' 'placed 0' 'failed 0' 'other 1' 'bytes 0' 'sum 0' 'used 0' 'allocated 0' > "$work/one"
ends "0, gen, which doesn't read its input" 0 "$work/one"
for words in "scripts 1" "scripts 64" "scripts 2 fixed 144 1" "scripts 2 keep 0"; do
    # shellcheck disable=SC2086
    run $words < "$here/scripts/first.txt"
    ends "0, $words" 0 "$here/scripts/first.replies"
done
run scripts 7 < /dev/null
ends "0, no scripts" 0 $none
run scripts 7 < "$work/longest"
ends "0, scripts, 16,777,216 bytes" 0 $none
for words in "lint 1" "lint 64"; do
    # shellcheck disable=SC2086
    run $words < "$here/lint/first.txt"
    ends "0, $words" 0 "$here/lint/first.replies"
done
run lint 7 < /dev/null
ends "0, an empty source" 0 "$here/lint/nothing.replies"
run lint 7 < "$work/longest"
ends "0, a source of 16,777,216 line feeds" 0 "$here/lint/nothing.replies"
run --version
echo "arena_run 0.1.0" > "$work/text"
ends "0, --version" 0 "$work/text"
run --help
cat > "$work/text" <<'T'
Runs calls on a bump arena, or scripts on arenas of a pool, and prints their replies; or lints sources.

usage: arena_run calls              reads a call from each line of standard input
       arena_run gen START COUNT    runs COUNT pseudo-random calls from the seed START, and prints a summary
       arena_run scripts WORKERS    reads scripts, and runs them on 1 to 64 threads
       arena_run scripts WORKERS fixed BYTES ARENAS
                                    each on one of ARENAS arenas of BYTES bytes
       arena_run scripts WORKERS keep BYTES
                                    keeps an arena for reuse only if it has at most BYTES bytes
       arena_run lint WORKERS       reads sources, and reports what 1 to 64 threads find in them
       arena_run --help             prints this text
       arena_run --version          prints the version

calls: alloc NAME SIZE ALIGN FILL
       grow NAME SIZE ALIGN FILL
       shrink NAME SIZE ALIGN
       dealloc NAME
       write NAME AT HEX      HEX is two digits for each byte, or - for none
       read NAME
       mark NAME              saves a checkpoint
       back NAME              rolls back to it, freeing what was placed since
       reset
       used
       allocated

a script: script, and then its commands
       list N, text N, bits N CAPACITY, map N, value N X          make an object
       push N V, insert N I V, pop N, remove N I, at N I, put N I V, truncate N LEN
       byte N B, front N B, append N HEX
       set N B, unset N B, has N B, union N M, ones N
       bind N KEY V, find N KEY, unbind N KEY
       load N, store N X
       len N, show N, copy N M, drop N

sources: separated by lines %%, each gets a report
       let NAME = EXPR;  EXPR;  { .. }                            its statements
T
ends "0, --help" 0 "$work/text"

# 1: the words aren't a command.
for words in "" "call" "calls calls" "calls --help" "--help calls" "--helps" "gen" "gen 1" "gen 1 1 1" "gen 01 1" "gen 1 01" \
    "gen 1 1000001" "gen 18446744073709551616 1" "scripts" "scripts 0" "scripts 65" "scripts 01" "scripts 1 1" "scripts 1 fixed 48" \
    "scripts 1 fixed 32 1" "scripts 1 fixed 56 1" "scripts 1 fixed 16777232 1" "scripts 1 fixed 48 0" "scripts 1 fixed 48 65" \
    "scripts 1 keep" "scripts 1 keep 18446744073709551616" "scripts 1 keep 0 0" "lint" "lint 0" "lint 65" "lint 01" "lint 1 1" \
    "lint 1 keep 0"; do
    # shellcheck disable=SC2086
    run $words < "$first"
    ends "1, words '$words'" 1 $none
done

run $'\377'
ends "1, a word that is no text" 1 $none
status=0
"$program" call > "$work/out" 2> /dev/full || status=$?
line_for 1 > "$work/err"
ends "1, the line can't be written" 1 $none

# 2: a line isn't a call, and nothing was run or written.
printf 'used\n\nread 1\nRead 1\nread\n' > "$work/input"
run calls < "$work/input"
ends "2, line 4" 2 $none 4

printf 'script\npop 1\n\npops 1\n' > "$work/input"
run scripts 2 < "$work/input"
ends "2, scripts, line 4" 2 $none 4
printf '\npop 1\nscript\n' > "$work/input"
run scripts 2 < "$work/input"
ends "2, a command before the first script, line 2" 2 $none 2

# 3: out of memory. With 16 MiB of memory in all, 16 MiB of input can't be stored.
status=0
(ulimit -v 16384; exec "$program" calls < "$work/longest" > "$work/out" 2> "$work/err") || status=$?
ends "3, 16 MiB in all" 3 $none

status=0
(ulimit -v 16384; exec "$program" scripts 1 < "$work/longest" > "$work/out" 2> "$work/err") || status=$?
ends "3, scripts, 16 MiB in all" 3 $none

status=0
(ulimit -v 16384; exec "$program" lint 1 < "$work/longest" > "$work/out" 2> "$work/err") || status=$?
ends "3, sources, 16 MiB in all" 3 $none

# 4: reading fails.
run calls < "$work"
ends "4, the input is a folder" 4 $none
run scripts 2 < "$work"
ends "4, scripts, the input is a folder" 4 $none
run lint 2 < "$work"
ends "4, sources, the input is a folder" 4 $none

# 5: writing fails.
status=0
"$program" calls < "$first" > /dev/full 2> "$work/err" || status=$?
: > "$work/out"
ends "5, the output is full" 5 $none
status=0
"$program" gen 0 1 > /dev/full 2> "$work/err" || status=$?
ends "5, the output for gen is full" 5 $none
status=0
"$program" --help > /dev/full 2> "$work/err" || status=$?
ends "5, the output for --help is full" 5 $none

status=0
"$program" scripts 2 < "$here/scripts/first.txt" > /dev/full 2> "$work/err" || status=$?
ends "5, the output for scripts is full" 5 $none

status=0
"$program" lint 2 < "$here/lint/first.txt" > /dev/full 2> "$work/err" || status=$?
ends "5, the output for sources is full" 5 $none

# 5: writing fails after a first part. The file may have at most 1,024 bytes.
for _ in $(seq 1000); do echo used; done > "$work/input"
for _ in $(seq 1000); do echo "number 0"; done | head -c 1024 > "$work/text"
status=0
(trap '' XFSZ; ulimit -f 1; exec "$program" calls < "$work/input" > "$work/out" 2> "$work/err") || status=$?
ends "5, a first part was written" 5 "$work/text"

# 6: the input is too long.
echo >> "$work/longest"
run calls < "$work/longest"
ends "6, 16,777,217 bytes" 6 $none
run scripts 2 < "$work/longest"
ends "6, scripts, 16,777,217 bytes" 6 $none
run lint 2 < "$work/longest"
ends "6, sources, 16,777,217 bytes" 6 $none

exit $failed
