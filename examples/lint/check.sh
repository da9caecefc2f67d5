#!/bin/bash
# Lints each example on 1, 2, 7 and 64 workers, and compares the reports, which don't depend on the number of workers.
set -u
here=$(dirname "$(readlink -f "$0")")
program=$("$here/../../tools/program.sh" arena_run --version) || exit 1
. "$here/../checking.sh"

for input in "$here"/*.txt; do
    name=$(basename "$input" .txt)
    for workers in 1 2 7 64; do
        "$program" lint $workers < "$input" | cmp -s - "$here/$name.replies"
        report "$name, lint $workers"
    done
done
exit $failed
