#!/bin/bash
# Measures `arena_run calls`, and for comparison the driver over the Rust crate, if its program is in NATIVE:
#     NATIVE=bench/driver/target/release/native bench/calls.sh [SEED] [LINES..]
# For each number of lines (default a million) it prints the least wall time of ROUNDS runs (default 5), in which the
# programs alternate, including the start of the process, and the peak memory. Both programs must print the same text.
# The lines are a seeded mix of the calls that both have, with sizes up to 511, 256 names, and a reset every 65,536
# lines. With PROFILE=marks a third of the lines set nested marks, a third place a block after each, and a third roll
# back to them, the newest first. With PROFILE=stay these blocks are empty, so they stay. The Rust crate has no such
# calls, so NATIVE isn't run then.
. "$(dirname "$(readlink -f "$0")")/measure.sh"
seeded 1000000 "$@"

# mix LINES: prints this number of lines.
mix() {
    awk -v x="$seed" -v lines="$1" '
        function draw(n) { x = (x * 16807) % 2147483647; return int(x / 7) % n }
        BEGIN {
            split("1 2 4 8 16", aligns, " ")
            for (i = 0; i < lines; i++) {
                kind = draw(16); name = draw(256)
                if (i % 65536 == 65535) print "reset"
                else if (kind < 4) print "alloc", name, draw(512), aligns[1 + draw(5)], draw(256)
                else if (kind < 6) print "grow", name, draw(512), aligns[1 + draw(5)], draw(256)
                else if (kind < 8) print "shrink", name, draw(512), aligns[1 + draw(5)]
                else if (kind < 10) print "dealloc", name
                else if (kind < 12) printf "write %d %d %02x\n", name, draw(512), draw(256)
                else if (kind < 15) print "read", name
                else print (draw(2) ? "used" : "allocated")
            }
        }'
}

# tries LINES SIZE: prints this number of lines, rounded down to a multiple of 3.
tries() {
    awk -v marks="$(($1 / 3))" -v size="$2" '
        BEGIN {
            for (i = 0; i < marks; i++) { print "mark", i; print "alloc", i, size, 8, 1 }
            for (i = marks - 1; i >= 0; i--) print "back", i
        }'
}

marks() { tries "$1" 24; }

# Empty blocks stay after each rollback.
stay() { tries "$1" 0; }

profile=${PROFILE:-mix}
[ "$profile" = mix ] || NATIVE=

head_of line
for lines in "${sizes[@]}"; do
    "$profile" "$lines" > "$input"
    must_fit
    measure "$lines" calls
done
