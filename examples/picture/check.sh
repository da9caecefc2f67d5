#!/bin/sh
# Draws each example and compares the picture; also checks an input with a line that isn't a call, and an output that
# can't be written. Line 1 of blocks.txt by hand: the first chunk is at 4096 and has 16320 bytes, so it ends at 20416.
# 3000 bytes below that, rounded down to a multiple of 8, is 17416, which is 13320 above the base: x='13320'
# width='3000'. The chunk is the older of two, so its row is the second, which begins at 18em.
set -u
here=$(dirname "$(readlink -f "$0")")
program=$("$here/../../tools/program.sh" arena_picture) || exit 1
. "$here/../checking.sh"

for input in "$here"/*.txt; do
    name=$(basename "$input" .txt)
    [ "$("$program" <"$input"; echo "status $?")" = "$(cat "$here/$name.svg"; echo 'status 0')" ]
    report "$name"
done
said=$(printf 'used\nalloc x\n' | "$program" 2>&1)
[ "$?, $said" = '2, line 2 is not understood' ]
report 'no call'
said=$("$program" <"$here/blocks.txt" 2>&1 >/dev/full)
[ "$?, $said" = '5, write fault' ]
report 'full output'
exit $failed
