#!/bin/bash
# Compares the proved arena with the real crate, in one process.
#     run.sh random ROUNDS [SEED]    random bytes, without libFuzzer
#     run.sh fuzz SECONDS            libFuzzer; the corpus is in target/fuzz/corpus
#     run.sh plants [ROUNDS]         three wrong arenas, each of which must be found
# The static libraries are those of bindings/lib, or of the folder that ARENA_LIBS names.
set -euo pipefail
cd "$(dirname "$(readlink -f "$0")")"
. ./common.sh
command -v cargo >/dev/null || { echo 'skip: there is no cargo'; exit 0; }

# differ FOLDER WORDS..: builds the plain loop in a folder, and runs it.
differ() {
    cargo build -q --release --target-dir "$1"
    "$1/release/differ" "${@:2}"
}

plants() {
    local plant status=0
    for plant in even_sizes last_byte_lost nothing_taken_back; do
        PLANT=$plant found "$plant" differ target/plants random "$1" 1 || status=1
    done
    return $status
}

case ${1-} in
random) differ target random "$2" "${3-1}" ;;
fuzz) fuzzed "$2" 400 target/fuzz ;;
plants) plants "${2-20000}" ;;
*) echo 'usage: run.sh random ROUNDS [SEED] | fuzz SECONDS | plants [ROUNDS]' >&2 && exit 1 ;;
esac
