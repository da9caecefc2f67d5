#!/bin/bash
# Measures `arena_run lint`, and for comparison the driver over the Rust crate, if its program is in NATIVE:
#     NATIVE=bench/driver/target/release/native bench/lint.sh [SEED] [BYTES..]
# For each size (default 16,000,000) and each number of workers in WORKERS (default "1 4") it prints the least wall
# time of ROUNDS runs (default 5), in which the programs alternate, including the start of the process, and the peak
# memory. Both programs must print the same text. The input has sources of 700 lines: seeded definitions and uses of
# 400 names, in nested blocks. It is cut off at the given size.
. "$(dirname "$(readlink -f "$0")")/measure.sh"
seeded 16000000 "$@"

# sources BYTES: prints sources of at least this number of bytes.
sources() {
    awk -v x="$seed" -v bytes="$1" '
        function draw(n) { x = (x * 16807) % 2147483647; return int(x / 7) % n }
        function name() { return "v" draw(400) }
        function factor(d,  k) {
            k = draw(10)
            if (d > 4 || k < 5) return draw(3) ? name() : draw(100000) ""
            return k < 6 ? "-" factor(d + 1) : "(" expr(d + 1) ")"
        }
        function term(d,  t) { t = factor(d); while (draw(3) == 0) t = t " * " factor(d + 1); return t }
        function expr(d,  t) { t = term(d); while (draw(5) < 2) t = t (draw(2) ? " + " : " - ") term(d + 1); return t }
        function put(line) { print line; printed += length(line) + 1 }
        BEGIN {
            while (printed < bytes) {
                if (printed) put("%%")
                depth = 0
                for (i = 0; i < 700; i++) {
                    k = draw(12)
                    if (k < 6) put("let " name() " = " expr(0) ";")
                    else if (k < 10) put(expr(0) ";")
                    else if (k == 10 && depth < 20) { put("{"); depth++ }
                    else if (depth > 0) { put("}"); depth-- }
                }
                while (depth > 0) { put("}"); depth-- }
            }
        }'
}

for bytes in "${sizes[@]}"; do
    sources "$bytes" > "$folder/sources"
    head -c "$bytes" "$folder/sources" > "$input"
    must_fit
    by_workers "$bytes" byte lint
done
