#!/bin/sh
# Makes a million calls from a number, twice, and compares both summaries with the stored one.
set -u
here=$(dirname "$(readlink -f "$0")")
program=$("$here/../../tools/program.sh" arena_run --version) || exit 1
. "$here/../checking.sh"
for run in first second; do
    "$program" gen 1 1000000 < /dev/null | cmp -s - "$here/million.summary"
    report "a million calls from 1, $run run"
done
exit $failed
