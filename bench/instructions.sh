#!/bin/bash
# Counts the instructions of a call of each loop, here and in the driver over the Rust crate, if its program is in
# NATIVE, by callgrind: of 65,536 more calls. For example:
#     NATIVE=bench/driver/target/release/native bench/instructions.sh vec_push box_new
# Without names these are the loops of one thread whose work doesn't depend on the number of calls.
set -euo pipefail
here=$(dirname "$(readlink -f "$0")")
program=$("$here/../tools/program.sh" bench_arena check)
[ $# -gt 0 ] || set -- alloc_warm grow_at_cursor reset_empty box_new vec_push vec_push_reserved vec_sum vec_small vec_extend \
    vec_insert_front vec_retain vec_iter string_push_byte bitset_set bitset_contains map_small scope_enter claim

# counted COMMAND..: prints how many instructions the command executes.
counted() {
    valgrind --tool=callgrind --callgrind-out-file=/dev/null "$@" 2>&1 > /dev/null | sed -n 's/.*refs: *//p' | tr -d ,
}

# each COMMAND..: prints the instructions of a call. Both programs run a loop five times.
each() {
    local few many
    few=$(counted "$@" 65536)
    many=$(counted "$@" 131072)
    awk -v few="$few" -v many="$many" 'BEGIN { printf "  %10.2f", (many - few) / 65536 / 5 }'
}

printf '%-32s  %10s  %10s\n' instructions here Rust
for loop; do
    printf '%-32s' "instructions $loop"
    each "$program" "$loop"
    [ -z "${NATIVE:-}" ] || each "$NATIVE" bench "$loop"
    echo
done
