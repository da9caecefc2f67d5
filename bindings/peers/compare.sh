#!/bin/bash
# compare.sh OUT WORDS..: compares the growing arena with the real crate, in the folder that run.sh filled.
#     random RUNS [SEED]    random runs of calls
#     fuzz SECONDS          libFuzzer; the corpus is in OUT/fuzz/corpus
#     plants                three wrong libraries, each of which must be found
#     speed [ROUNDS]        nanoseconds an operation, by turns with bumpalo and the real crate
#     instructions          instructions an operation of the same loops, by valgrind
set -euo pipefail
here=$(dirname "$(readlink -f "$0")")
. "$here/../../bench/fuzz/common.sh"
cd "$1"
export CARGO_NET_OFFLINE=true

plants() {
    local plant folder status=0
    for plant in 1 2 3; do
        folder=$PWD/plants/$plant
        mkdir -p "$folder"
        cc -O2 -fPIC -DPLANT="$plant" -c -o "$folder/by_hand.o" "$here/../c/by_hand.c"
        rm -f "$folder/libarena_cursor.a"
        ar rcs "$folder/libarena_cursor.a" "$folder/by_hand.o"
        ARENA_LIBS=$folder found "plant $plant" cargo run -q --release --target-dir plants/target -p rig --bin differ 20000 1 ||
            status=1
    done
    return $status
}

# counted ROUNDS LOOP: the instructions of a run.
counted() {
    valgrind --tool=callgrind --callgrind-out-file=/dev/null "$speed" "$@" 2>&1 >/dev/null | sed -n 's/.*Collected : //p'
}

# Each round has 20,000 operations.
instructions() {
    local speed=${CARGO_TARGET_DIR:-target}/release/speed line
    cargo build -q --release -p rig --bin speed
    "$speed" 1 | while read -r line; do
        echo "${line:0:37} $((($(counted 12 "${line:0:37}") - $(counted 2 "${line:0:37}")) / 20000))" | sed 's/.$/.&/'
    done
}

case ${2-} in
random) cargo run -q --release -p rig --bin differ "$3" "${4-1}" ;;
fuzz) fuzzed "$3" 600 fuzz -p rig --bin differ ;;
plants) plants ;;
speed) cargo run -q --release -p rig --bin speed "${3-300}" ;;
instructions) instructions ;;
*) echo 'usage: compare.sh OUT random RUNS [SEED] | fuzz SECONDS | plants | speed [ROUNDS] | instructions' >&2 && exit 1 ;;
esac
