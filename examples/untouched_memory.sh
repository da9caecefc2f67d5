#!/bin/bash
# Checks that a chunk's memory isn't touched before it is used. Runs the program on a block of one byte whose
# alignment makes its arena take a chunk of 512 MiB, and prints the peak memory of the process. If that isn't below 32
# MiB, it exits with 1.
set -euo pipefail
here=$(dirname "$(readlink -f "$0")")
work=$(mktemp -d)
trap 'rm -rf "$work"' EXIT
[ -x /usr/bin/time ] || { echo "peak memory is measured with GNU time, /usr/bin/time" >&2; exit 1; }
program=$("$here/../tools/program.sh" arena_run --version)

printf 'alloc 0 1 536870912 7\nread 0\nallocated\n' > "$work/calls"
/usr/bin/time -f %M -o "$work/peak" "$program" calls < "$work/calls" > "$work/replies"
allocated=$(sed -n 's/^number //p' "$work/replies")
peak=$(cat "$work/peak")
echo "allocated $allocated bytes, at most $peak KiB of memory at once"
[ "$allocated" -ge 536870912 ] && [ "$peak" -lt 32768 ]
