#!/bin/bash
# Times loops, and prints a line for each: the least nanoseconds per call, and next to it those of the driver over the
# Rust crate, if its program is in NATIVE and has such a loop, with the ratio of the two. Beside each figure is its
# spread: by how much the slowest round took longer. For example:
#     NATIVE=bench/driver/target/release/native bench/loops.sh vec_push "vec_push 1000"
#     NATIVE=bench/driver/target/release/native bench/loops.sh hash pool
# A word is a loop, whose name may be followed by the number of calls and further words; or a section: arena, items,
# vec, text, bits, hash, clone, symbols, trees, pool. Without words all sections are timed. In ROUNDS rounds (default
# 5) the two programs alternate, each with the best of its own five runs, so that noise affects both. A loop's number
# depends on the calls alone: both programs must print the same.
set -euo pipefail
here=$(dirname "$(readlink -f "$0")")

# section WORD: sets `loops` to the loops of the section, or to this loop.
section() {
    case $1 in
        arena) loops=(alloc_warm grow_at_cursor reset_empty reset_chunks read_older write_older) ;;
        items) loops=(box_new slice_copy str_copy alloc_fixed) ;;
        vec) loops=(vec_push vec_push_reserved vec_sum vec_small vec_extend vec_insert_front vec_retain vec_iter) ;;
        text) loops=(string_push_str string_push_byte string_push_start) ;;
        bits) loops=(bitset_set bitset_set_ascending bitset_contains bitset_ones bitset_union) ;;
        hash) loops=(map_small map_get map_remove map_insert map_iter map_walked) ;;
        clone) loops=(vec_clone map_clone) ;;
        symbols) loops=(intern_new intern_known scope_define scope_lookup scope_enter) ;;
        trees) loops=(tree_parse) ;;
        pool) loops=(pool_get pool_get_threads claim claim_threads) ;;
        *) loops=("$1") ;;
    esac
}

[ $# -gt 0 ] || set -- arena items vec text bits hash clone symbols trees pool
named=()
for word; do
    section "$word"
    named+=("${loops[@]}")
done
set -- "${named[@]}"
[ -z "${NATIVE:-}" ] || [ -x "$NATIVE" ] || { echo "NATIVE is no program: $NATIVE" >&2; exit 1; }

program=$("$here/../tools/program.sh" bench_arena check)
lines=$(mktemp)
trap 'rm -f "$lines"' EXIT

# note WHO LOOP: appends the lines from standard input to the notes, each after these two words.
note() {
    sed "s/^/$1\t$2\t/" >> "$lines"
}

for _ in $(seq "${ROUNDS:-5}"); do
    for loop; do
        # shellcheck disable=SC2086
        "$program" $loop | note here "$loop"
        if [ -n "${NATIVE:-}" ]; then
            # For a loop that it doesn't have, the driver prints so and fails.
            # shellcheck disable=SC2086
            { "$NATIVE" bench $loop 2> /dev/null || true; } | note rust "$loop"
        fi
    done
done

# The third field of a line is what a program printed: the loop's name, its nanoseconds, and a number after the word
# `number`. The driver prints nanoseconds with three decimals; its milliseconds after the word `total` are more
# precise.
awk -F '\t' '
    BEGIN { for (i = 1; i < ARGC - 1; i++) { names[i] = ARGV[i]; delete ARGV[i] } }
    {
        n = split($3, words, " ")
        split("", told)
        for (i = 1; i < n; i++) told[words[i]] = words[i + 1]
        if ("number" in told) number[$1, $2] = told["number"]
        nanoseconds = "total" in told ? told["total"] * 1000000 / told["ops"] : words[2] + 0
        if (!(($1, $2) in least) || nanoseconds < least[$1, $2]) least[$1, $2] = nanoseconds
        if (nanoseconds > most[$1, $2]) most[$1, $2] = nanoseconds
    }
    function spread(key) { return sprintf("%.1f%%", least[key] > 0 ? 100 * (most[key] / least[key] - 1) : 0) }
    END {
        printf "%-24s  %12s  %7s  %12s  %7s  %7s\n", "loop", "here", "spread", "Rust", "spread", "ratio"
        for (i = 1; i < ARGC - 1; i++) {
            loop = names[i]
            if (!(("here", loop) in least)) { print loop ": no such loop"; failed = 1; continue }
            here = least["here", loop]
            if (!(("rust", loop) in least)) { printf "%-24s  %12.6f  %7s\n", loop, here, spread("here" SUBSEP loop); continue }
            rust = least["rust", loop]
            other = number["here", loop] != number["rust", loop]
            if (other) failed = 1
            printf "%-24s  %12.6f  %7s", loop, here, spread("here" SUBSEP loop)
            printf "  %12.6f  %7s  %7.2f%s\n", rust, spread("rust" SUBSEP loop), (rust > 0 ? here / rust : 0), (other ? "  OTHER NUMBERS" : "")
        }
        exit failed
    }' "$@" "$lines"
