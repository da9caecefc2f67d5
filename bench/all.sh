#!/bin/bash
# Measures all that docs/PERFORMANCE.md shows of this machine, for example:
#     NATIVE=bench/driver/target/release/native bench/all.sh > bench/measured.txt
# That is every loop (loops.sh), cost against size (sizes.sh), whole programs (calls.sh, gen.sh, scripts.sh, lint.sh),
# instructions if valgrind is there (instructions.sh), and allocations (examples/failing_memory.sh). The first lines say what was measured where. From the files
# bench/measured*.txt, one of each machine, page.py makes the page. On a busy machine it doesn't begin: if the load is
# above a half, or the rounds of one loop differ by more than a tenth. With ANYWAY=1 it does, and the file says so.
set -euo pipefail
here=$(dirname "$(readlink -f "$0")")
read -r load _ < /proc/loadavg
spread=$(ROUNDS=5 NATIVE='' "$here/loops.sh" vec_sum | awk 'END { print $3 + 0 }')
if awk -v load="$load" -v spread="$spread" 'BEGIN { exit !(load > 0.5 || spread > 10) }'; then
    echo "the machine is busy: load $load, rounds that differ by $spread%" >&2
    [ -n "${ANYWAY:-}" ] || exit 1
fi
echo "machine  $(nproc) virtual cores, $(sed -n 's/^model name[^:]*: //p' /proc/cpuinfo | head -n 1)," \
    "$(getconf LEVEL2_CACHE_SIZE | awk '{ print $1 / 1024 }') KiB of second cache a core"
echo "state    commit $(git -C "$here" rev-parse --short HEAD), $(rt version | awk '{ print $1 }'), $(date +%F)," \
    "load $load, rounds of vec_sum within $spread%"
"$here/loops.sh"
"$here/sizes.sh"
for words in calls gen scripts lint; do
    "$here/$words.sh"
done
! command -v valgrind > /dev/null || "$here/instructions.sh"
"$here/../examples/failing_memory.sh" | sed -n 's/^\(.*\), \([0-9]*\) allocations:$/allocations \1  \2/p'
