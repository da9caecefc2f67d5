#!/bin/sh
# Prints the path of the proved program of a crate. If it isn't built, or a source (not a page) is newer, it is proved
# and built first, which runs it with these words. With -n it isn't built, and the status is 1. For example:
#     tools/program.sh arena_run --version
set -eu
only=
[ "$1" != -n ] || { only=yes; shift; }
crates=$(dirname "$(dirname "$(readlink -f "$0")")")/crates
name=$1
program=$crates/$name/out/$name
shift
if [ ! -s "$program" ] ||
    [ -n "$(find "$crates.txt" "$crates" -path '*/out' -prune -o -type f ! -name '*.md' -newer "$program" -print -quit)" ]; then
    [ -z "$only" ] || exit 1
    (cd "$crates/$name" && rt run -- "$@") >&2 </dev/null
    touch -c "$program"
fi
# The gate may leave it as a plain file, if an earlier gate proved it.
[ -x "$program" ] || chmod +x "$program"
echo "$program"
