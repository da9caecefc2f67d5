#!/bin/bash
# Runs the program on each example, on 1, 2, 7 and 64 workers and over pools of each kind, and compares the replies,
# which don't depend on the number of workers or on the arenas.
set -u
here=$(dirname "$(readlink -f "$0")")
program=$("$here/../../tools/program.sh" arena_run --version) || exit 1
. "$here/../checking.sh"

# replies NAME REPLIES WORD..: runs an example with these words, and compares its replies.
replies() {
    "$program" "${@:3}" < "$here/$1.txt" | cmp -s - "$2"
    report "$1, ${*:3}"
}

for input in "$here"/*.txt; do
    name=$(basename "$input" .txt)
    for workers in 1 2 7 64; do
        replies "$name" "$here/$name.replies" scripts $workers
        replies "$name" "$here/$name.replies" scripts $workers keep 0
        # A script that exceeds the budget of an arena that grows doesn't end `refused` over a fixed-size pool.
        [ "$name" = past_the_budget ] && continue
        for arenas in 1 4 64; do
            replies "$name" "$here/$name.replies" scripts $workers fixed 1048576 $arenas
        done
    done
done

# An arena of 96 bytes has room for the cost of the first example, and one of 0 bytes for nothing.
replies first "$here/first.replies" scripts 1 fixed 144 1
replies first <(printf '%s\n' 'script 0' 'done' 'ended full') scripts 1 fixed 48 1

# A fixed-size pool has exactly as many arenas as the words say: with address space for 16 more regions, 16 more
# arenas can be made.
# most_arenas KIB: prints the largest number of arenas of 16 MiB for which a pool can be made in this address space.
most_arenas() {
    local arenas
    for arenas in $(seq 1 64); do
        (ulimit -v "$1" && "$program" scripts 1 fixed 16777216 "$arenas" < "$here/first.txt" > /dev/null 2>&1) || break
    done
    echo $((arenas - 1))
}

few=$(most_arenas 200000)
if [ "$few" -gt 0 ] && [ "$(most_arenas $((200000 + 16 * 16400)))" = $((few + 16)) ]; then
    echo "ok   as many arenas as the words say"
else
    echo "FAIL as many arenas as the words say"
    failed=1
fi
exit $failed
