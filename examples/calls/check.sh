#!/bin/sh
# Runs the program on each example and compares the replies.
set -u
here=$(dirname "$(readlink -f "$0")")
program=$("$here/../../tools/program.sh" arena_run --version) || exit 1
. "$here/../checking.sh"
for input in "$here"/*.txt; do
    name=$(basename "$input" .txt)
    "$program" calls <"$input" | cmp -s - "$here/$name.replies"
    report "$name"
done
exit $failed
