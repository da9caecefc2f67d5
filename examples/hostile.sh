#!/bin/bash
# Runs the program on hostile inputs, outputs and streams. If each run ends as the rules say, and in time, it prints
# nothing and exits with 0:
#     examples/hostile.sh [all]
# With `all`, it also runs over names that are chosen to be slow to look up.
set -u
# The last part of a pipe runs in this shell, so that it can record a failure.
shopt -s lastpipe
here=$(dirname "$(readlink -f "$0")")
work=$(mktemp -d)
trap 'rm -rf "$work"' EXIT
program=$("$here/../tools/program.sh" arena_run --version) || exit 1
failed=0

# ends NAME STATUS TEXT LINE: checks the run that has just ended. Its status is in `status`, and its output in the
# files `out` and `err`.
ends() {
    if [ "$status" != "$2" ] || [ "$(head -c 1000 "$work/out")" != "$3" ] || [ "$(head -c 1000 "$work/err")" != "$4" ]; then
        echo "FAIL $1: status $status, wrote $(head -c 100 "$work/out"), said $(head -c 100 "$work/err")"
        failed=1
    fi
}

# Runs `calls`, or other words, over this function's standard input, for a limited number of seconds of processor time
# (default 10).
calls() {
    status=0
    : > "$work/out"
    : > "$work/err"
    (ulimit -t "${1:-10}"; exec "$program" ${words:-calls} > "$work/out" 2> "$work/err") || status=$?
}

# refuses NAME LINE: in the calls from standard input, this line is the first one that isn't a call.
refuses() {
    calls
    ends "$1" 2 "" "line $2 is not understood"
}

# Prints the same byte the given number of times.
bytes() { head -c "$1" /dev/zero | tr '\0' "$2"; }

# Lines of 16 MB.
bytes 16777216 a | refuses "a line of 16,777,216 bytes" 1
{ printf 'read '; bytes 16777000 9; echo; } | refuses "a number of 16,777,000 digits" 1
{ printf 'used\nwrite 0 0 '; bytes 16777001 0; echo; } | refuses "half a byte too much" 2
bytes 16777216 ' ' | refuses "16,777,216 spaces" 1
bytes 16777216 '\0' | refuses "16,777,216 bytes of 0" 1
{ bytes 16777214 '\n'; echo x; } | refuses "a bad line behind 16,777,214 empty ones" 16777215
# The chunk for 8,000,000 bytes is the smallest number of whole pages, less 64 bytes, that has room: 8,003,520, from
# address 4096.
{ printf 'alloc 0 8000000 1 0\nwrite 0 0 '; bytes 16000000 5; printf '\nwrite 0 7999999 ab\nused\n'; } | calls
ends "a line of 8,000,000 bytes" 0 $'placed 7616 refused 0\ndone\ndone\nnumber 8000000' ""
{ printf 'alloc 0 8000000 1 85\nread 0\n'; bytes 16777170 '\n'; printf 'used\n'; } | calls
{ printf 'placed 7616 refused 0\nbytes '; bytes 16000000 5; printf '\nnumber 8000000\n'; } > "$work/text"
cmp -s "$work/out" "$work/text" || { echo "FAIL a reply of 8,000,000 bytes"; failed=1; }
bytes 16777216 '\n' | calls
ends "16,777,216 empty lines" 0 "" ""

# Inputs that end in the middle of a line.
printf 'used\nallocated' | calls
ends "no line feed at the end" 0 $'number 0\nnumber 0' ""
printf 'used\nallocate' | refuses "half a word at the end" 2
printf 'alloc 0 1 1' | refuses "three numbers of four" 1
printf 'alloc 0 1 1 ' | refuses "a space at the end" 1
printf 'alloc 0 2 1 0\nwrite 0 0 abc' | refuses "one and a half bytes" 2

# Bytes that can't be part of a call.
printf 'used\0\n' | refuses "a byte of 0 behind a word" 1
printf 'used\n\0' | refuses "a byte of 0 alone" 2
printf 'us\0ed\n' | refuses "a byte of 0 in a word" 1
printf 'used\r\nused\r\n' | refuses "lines that end as on Windows" 1
printf '\r\n' | refuses "an empty line of that kind" 1
printf 'used\rused\n' | refuses "a carriage return between" 1
printf '\xef\xbb\xbfused\n' | refuses "a mark of byte order" 1
printf '\xff\xfeu\0s\0e\0d\0\n\0' | refuses "two bytes for each sign" 1
printf 'used\n\xc2\xa0\n' | refuses "a space that isn't one" 2
printf 'read \xd9\xa1\n' | refuses "a digit of another script" 1
printf 'read%b1\n' '\t' | refuses "a tab" 1
printf 'read +1\n' | refuses "a sign" 1
printf 'read -1\n' | refuses "a number below 0" 1
printf 'read 0x1\n' | refuses "a number by 16" 1
printf 'read 4294967296\n' | refuses "a name past its type" 1
printf 'alloc 0 18446744073709551616 1 0\n' | refuses "a size past its type" 1

# Streams that are closed, full, or of another kind. If there is nothing to write, a closed output isn't an error.
many() { yes used | head -100000; }
status=0
"$program" calls <&- > "$work/out" 2> "$work/err" || status=$?
ends "standard input closed" 4 "" "read fault"
status=0
"$program" gen 0 0 <&- > "$work/out" 2> "$work/err" || status=$?
ends "standard input closed, which gen doesn't read" 0 \
    $'calls 0\nplaced 0\nfailed 0\nother 0\nbytes 0\nsum 0\nused 0\nallocated 0' ""
: > "$work/out"
status=0
many | "$program" calls >&- 2> "$work/err" || status=$?
ends "standard output closed" 5 "" "write fault"
status=0
echo | "$program" calls >&- 2> "$work/err" || status=$?
ends "standard output closed, no replies" 0 "" ""
: > "$work/err"
status=0
"$program" calls <&- >&- 2>&- || status=$?
ends "all closed" 4 "" ""
status=0
"$program" call 2>&- || status=$?
ends "standard error closed" 1 "" ""
many | "$program" calls 2> "$work/err" | true
status=${PIPESTATUS[1]}
ends "a reader that goes" 5 "" "write fault"
many | "$program" calls 2> "$work/err" | head -c 1 > /dev/null
status=${PIPESTATUS[1]}
ends "a reader that goes after one byte" 5 "" "write fault"
"$program" gen 1 1000 2> "$work/err" > /dev/full
status=$?
ends "a full output" 5 "" "write fault"
many > "$work/many"
"$program" calls < "$work/many" 1< "$work/many" 2> "$work/err"
status=$?
ends "an output that can't be written" 5 "" "write fault"
"$program" calls 0> "$work/empty" > "$work/out" 2> "$work/err"
status=$?
ends "an input that can't be read" 4 "" "read fault"

# An input of 2 KB whose replies are 3.2 GB, with room for 200 MB.
{ echo "alloc 0 8000000 1 0"; yes "read 0" | head -200; } > "$work/input"
status=0
(ulimit -v 200000; exec "$program" calls < "$work/input" > "$work/out" 2> "$work/err") || status=$?
ends "replies that memory doesn't hold" 3 "" "out of memory"

[ "${1:-}" = all ] || exit $failed

# Names that collide under a publicly known hash: as many blocks, marks and objects as an input has room for. A table
# with this hash would take a step for each pair of names, which is nine minutes or more. Here the limit is some
# seconds.
cat > "$work/names.c" <<'C'
#include <stdint.h>
#include <stdio.h>
#include <stdlib.h>
// One multiplication to 128 bits, whose halves are joined, and then halves again.
static uint32_t hash(uint32_t name) {
    uint64_t fed = 0x243f6a8885a308d3 ^ ((uint64_t)name << 32 | name);
    unsigned __int128 product = (unsigned __int128)fed * (0x9e3779b97f4a7c15 ^ 8);
    uint64_t joined = (uint64_t)product ^ (uint64_t)(product >> 64);
    return (uint32_t)(joined ^ (joined >> 32));
}
// This many names whose hash, modulo a power of two, lies in a narrow band, and begins with seven bits of 0.
int main(int count, char **words) {
    uint64_t names = strtoull(words[1], 0, 10), groups = strtoull(words[2], 0, 10), band = names * groups >> 25;
    band += band / 8 + 2;
    for (uint64_t name = 0; name < 4294967296 && names > 0; name++) {
        uint32_t h = hash((uint32_t)name);
        if ((h & (groups - 1)) < band && h >> 24 < 2) {
            printf("%u\n", (uint32_t)name);
            names--;
        }
    }
    return names > 0;
}
C
cc -O2 -o "$work/names" "$work/names.c" || exit 1
slow() {
    local names=$1 groups=$2 call=$3 reply=$4
    "$work/names" "$names" "$groups" > "$work/list" || { echo "FAIL too few names"; failed=1; }
    sed "s/.*/$call/" "$work/list" | calls 20
    yes "$reply" | head -"$names" > "$work/text"
    cmp -s "$work/out" "$work/text" || { echo "FAIL $names names that hash alike, '$call': status $status"; failed=1; }
}
slow 589824 65536 'alloc & 0 1 0' 'placed 16 refused 0'
slow 1000000 131072 'mark &' 'done'
"$work/names" 589824 65536 > "$work/list"
{ echo script; sed 's/.*/value & 1/' "$work/list"; } | words=scripts\ 1 calls 20
{ echo "script 0"; yes done | head -589824; echo "ended done"; } > "$work/text"
cmp -s "$work/out" "$work/text" || { echo "FAIL 589824 objects whose names hash alike: status $status"; failed=1; }
exit $failed
