#!/bin/sh
# Runs the gate from nothing, in a clone of the last commit, and prints what it took and its last line. It takes an hour
# on four cores.
set -eu
top=$(dirname "$(dirname "$(readlink -f "$0")")")
work=$(mktemp -d)
trap 'rm -rf "$work"' EXIT
git clone -q "$top" "$work/clone"
cd "$work/clone"
anew=
case $(rt help 2>&1) in *--anew*) anew=--anew ;; esac
/usr/bin/time -f '%U %S %e' -o "$work/times" rt ci $anew > "$work/printed" 2>&1 || { tail -n 5 "$work/printed"; exit 1; }
awk '{ printf "%.0f processor minutes, %.0f by the clock: ", ($1 + $2) / 60, $3 / 60 }' "$work/times"
echo "commit $(git rev-parse --short HEAD), $(rt version), $(nproc) cores," \
    "$(sed -n 's/^model name[^:]*: //p' /proc/cpuinfo | head -n 1)"
tail -n 1 "$work/printed"
