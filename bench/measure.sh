# Functions for the scripts that time `arena_run`, and the driver over the Rust crate if its program is in NATIVE.
# They read this file by `.`. It sets `program`, a scratch `folder`, and `input`, the file that both programs read.
set -euo pipefail
export LC_ALL=C
[ -z "${NATIVE:-}" ] || [ -x "$NATIVE" ] || { echo "NATIVE is no program: $NATIVE" >&2; exit 1; }
[ -x /usr/bin/time ] || { echo "peak memory is measured with GNU time, /usr/bin/time" >&2; exit 1; }
program=$("$(dirname "${BASH_SOURCE[0]}")/../tools/program.sh" arena_run --version)
folder=$(mktemp -d)
trap 'rm -rf "$folder"' EXIT
input=$folder/input

# seeded SIZE [SEED] [SIZE..]: sets `seed` (default 1) and `sizes` (default the first SIZE).
seeded() {
    seed=${2:-1}
    sizes=("${@:3}")
    [ ${#sizes[@]} -gt 0 ] || sizes=("$1")
}

# must_fit: exits if the input is longer than `arena_run` may read.
must_fit() {
    local size
    size=$(stat -c %s "$input")
    [ "$size" -le 16777216 ] || { echo "the input has $size bytes, past the limit" >&2; exit 1; }
}

# weigh WHO COMMAND..: records the peak memory in KiB, and the checksum of the output.
weigh() {
    /usr/bin/time -f %M -o "$folder/$1.memory" "${@:2}" < "$input" 2> /dev/null | cksum > "$folder/$1.text"
    : > "$folder/$1.times"
}

# clock WHO COMMAND..: records the wall time in microseconds.
clock() {
    local began=$EPOCHREALTIME
    "${@:2}" < "$input" > /dev/null 2>&1
    local ended=$EPOCHREALTIME
    echo $((${ended/./} - ${began/./})) >> "$folder/$1.times"
}

# tell COUNT WORDS WHO..: prints a line of the table, for these programs. A spread is by how much the slowest round took
# longer than the fastest.
tell() {
    {
        for who in "${@:3}"; do
            sort -n "$folder/$who.times" | sed -n '1p;$p'
            tail -n 1 "$folder/$who.memory"
        done
    } | paste -sd ' ' | awk -v count="$1" -v words="$2" '
        function ratio(a, b) { return sprintf("%.2f", b > 0 ? a / b : 0) }
        function spread(a, b) { return sprintf("%.1f%%", a > 0 ? 100 * (b / a - 1) : 0) }
        { printf "%-20s  %9d  %10.3f  %7s", "lines " words, count, $1 / 1000, spread($1, $2) }
        NF == 3 { printf "  %10.1f\n", $3 / 1024 }
        NF == 6 {
            printf "  %10.3f  %7s  %7s", $4 / 1000, spread($4, $5), ratio($1, $4)
            printf "  %10.1f  %10.1f  %7s\n", $3 / 1024, $6 / 1024, ratio($3, $6)
        }'
}

# head_of UNIT: prints the head of the table.
head_of() {
    printf '%-20s  %9s  %10s  %7s  %10s  %7s  %7s  %10s  %10s  %7s\n' words "${1}s" 'here, ms' spread 'Rust, ms' spread ratio \
        'here, MiB' 'Rust, MiB' ratio
}

# measure COUNT WORD..: runs the programs with these words, alternating, ROUNDS times (default 5), and prints their
# line. Both must print the same text.
measure() {
    weigh here "$program" "${@:2}"
    [ -z "${NATIVE:-}" ] || weigh Rust "$NATIVE" "${@:2}"
    for _ in $(seq "${ROUNDS:-5}"); do
        clock here "$program" "${@:2}"
        [ -z "${NATIVE:-}" ] || clock Rust "$NATIVE" "${@:2}"
    done
    if [ -n "${NATIVE:-}" ]; then
        tell "$1" "${*:2}" here Rust
        cmp "$folder/here.text" "$folder/Rust.text" || { echo "the texts differ" >&2; exit 1; }
    else
        tell "$1" "${*:2}" here
    fi
}

# by_workers COUNT UNIT WORD: prints a table of this word, with a line for each number of workers in WORKERS (default
# "1 4").
by_workers() {
    local workers
    head_of "$2"
    for workers in ${WORKERS:-1 4}; do
        measure "$1" "$3" "$workers"
    done
}
