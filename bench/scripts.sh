#!/bin/bash
# Measures `arena_run scripts`, and for comparison the driver over the Rust crate, if its program is in NATIVE:
#     NATIVE=bench/driver/target/release/native bench/scripts.sh [SEED] [COUNT..]
# For each count (default 1,000) and each number of workers in WORKERS (default "1 4") it prints the least wall time
# of ROUNDS runs (default 5), in which the programs alternate, including the start of the process, and the peak
# memory. Both programs must print the same text. The input has 1,200 scripts of that many commands each: a seeded mix
# on four objects of each kind. With PROFILE=falling, rising or random it has one script, with that many names (at
# most 400,000), which are made in this order, dropped and made again.
. "$(dirname "$(readlink -f "$0")")/measure.sh"
seeded 1000 "$@"

# mix COUNT: prints the scripts.
mix() {
    awk -v x="$seed" -v commands="$1" '
        function draw(n) { x = (x * 16807) % 2147483647; return int(x / 7) % n }
        BEGIN {
            for (s = 0; s < 1200; s++) {
                print "script"
                for (i = 0; i < 4; i++) {
                    print "list", i; print "text", 10 + i; print "bits", 20 + i, 64 + draw(1000)
                    print "map", 30 + i; print "value", 40 + i, draw(100000)
                }
                for (c = 0; c < commands; c++) {
                    n = draw(4); k = draw(100)
                    if (k < 22) print "push", n, draw(1000000)
                    else if (k < 25) print "insert", n, draw(8), draw(1000)
                    else if (k < 29) print "pop", n
                    else if (k < 33) print "at", n, draw(100)
                    else if (k < 36) print "put", n, draw(100), draw(1000)
                    else if (k < 37) print "remove", n, draw(50)
                    else if (k < 47) print "byte", 10 + n, 97 + draw(26)
                    else if (k < 49) print "front", 10 + n, 97 + draw(26)
                    else if (k < 54) print "append", 10 + n, "68656c6c6f"
                    else if (k < 62) print "set", 20 + n, draw(1000)
                    else if (k < 66) print "has", 20 + n, draw(1000)
                    else if (k < 67) print "union", 20 + n, 20 + draw(4)
                    else if (k < 79) print "bind", 30 + n, draw(2000), draw(1000)
                    else if (k < 90) print "find", 30 + n, draw(2000)
                    else if (k < 93) print "unbind", 30 + n, draw(2000)
                    else if (k < 95) print "store", 40 + n, draw(1000)
                    else if (k < 97) print "load", 40 + n
                    else if (k < 99) print "len", 10 * draw(4) + n
                    else if (draw(20) == 0) print "show", 10 * draw(5) + n
                    else print "len", n
                }
            }
        }'
}

# names ORDER COUNT: prints the script.
names() {
    awk -v x="$seed" -v order="$1" -v count="$2" '
        function draw(n) { x = (x * 16807) % 2147483647; return int(x / 7) % n }
        BEGIN {
            for (i = 0; i < count; i++) name[i] = order == "falling" ? count - 1 - i : i
            if (order == "random") for (i = count - 1; i > 0; i--) { j = draw(i + 1); n = name[i]; name[i] = name[j]; name[j] = n }
            print "script"
            for (i = 0; i < count; i++) print "list", name[i]
            for (i = 0; i < count; i++) print "drop", name[i]
            for (i = 0; i < count; i++) print "list", name[i]
        }'
}

falling() { names falling "$1"; }
rising() { names rising "$1"; }
random() { names random "$1"; }

profile=${PROFILE:-mix}
for count in "${sizes[@]}"; do
    "$profile" "$count" > "$input"
    must_fit
    by_workers "$(wc -l < "$input")" line scripts
done
