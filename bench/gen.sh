#!/bin/bash
# Measures `arena_run gen`, and for comparison the driver over the Rust crate, if its program is in NATIVE:
#     NATIVE=bench/driver/target/release/native bench/gen.sh [COUNT..]
# For each count (default a million) it prints the least wall time of ROUNDS runs (default 5), in which the programs
# alternate, including the start of the process, and the peak memory. Then both programs make calls from fifty starts,
# and must print the same lines.
. "$(dirname "$(readlink -f "$0")")/measure.sh"
[ $# -gt 0 ] || set -- 1000000
input=/dev/null

head_of call
for count; do
    measure "$count" gen 1 "$count"
done

[ -n "${NATIVE:-}" ] || exit 0
starts="0 1 2 18446744073709551615 9223372036854775808"
for i in $(seq 45); do
    starts="$starts $((i * 7919 * 104729))"
done
counts="0 1 2 10 100 1000 10000 65535 65536 65537 100000 131072 1000000"
same=0
for start in $starts; do
    for count in $counts; do
        cmp <("$program" gen "$start" "$count") <("$NATIVE" gen "$start" "$count" 2> /dev/null) \
            || { echo "gen $start $count: the lines differ" >&2; exit 1; }
        same=$((same + 1))
    done
done
echo "$same runs from 50 starts: the same lines"
