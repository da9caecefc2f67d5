#!/bin/bash
# Measures cost against size, with loops.sh: vectors and maps of ten thousand to ten million values, and blocks of eight
# bytes in one of up to forty chunks.
set -euo pipefail
here=$(dirname "$(readlink -f "$0")")
loops=()
for name in vec_push vec_sum map_insert map_get; do
    for values in 10000 100000 1000000 10000000; do
        loops+=("$name $values")
    done
done
for name in map_remove map_iter; do
    for values in 10000 100000 1000000; do
        loops+=("$name $values")
    done
done
for name in read_older write_older; do
    for chunks in 1 10 20 40; do
        loops+=("$name 10000000 $chunks")
    done
done
"$here/loops.sh" "${loops[@]}"
