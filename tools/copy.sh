#!/bin/sh
# Copies crates and all below them into a repository TO, by crates.txt: their sources and proofs without mutants, LICENSE,
# NOTICE with the commit, their lines of crates.txt, and HANDLES, which allows none unless a copied crate uses threads:
#     tools/copy.sh arena example_parser ../tool
set -eu
top=$(dirname "$(dirname "$(readlink -f "$0")")")
[ $# -ge 2 ] || { echo "usage: tools/copy.sh CRATE.. TO" >&2; exit 2; }
names=
while [ $# -gt 1 ]; do names="$names $1"; shift; done
[ ! -e "$1/crates.txt" ] || { echo "$1 has a crates.txt" >&2; exit 1; }
mkdir -p "$1/crates"
# The lines of the named crates and of all below. A line names only crates above it.
awk -v names="$names" '
    BEGIN { n = split(names, list); for (i = 1; i <= n; i++) needed[list[i]] = 1 }
    { lines[NR] = $0 }
    END {
        for (i = NR; i > 0; i--) {
            n = split(lines[i], words, /[: ]+/)
            if (words[1] !~ /^#?$/ && needed[words[1]]) { kept[i] = 1; for (k = 2; k <= n; k++) needed[words[k]] = 1 }
        }
        for (i = 1; i <= NR; i++) if (kept[i]) print lines[i]
    }' "$top/crates.txt" > "$1/crates.txt"
for name in $names; do
    grep -q "^$name[: ]" "$1/crates.txt" || { echo "no crate $name" >&2; exit 1; }
done
sed 's/[: ].*//' "$1/crates.txt" | while read -r name; do
    (cd "$top/crates" && find "$name" \( -name out -o -name must-fail \) -prune -o -type f -print | tar -cf - -T -) | tar -xf - -C "$1/crates"
done
cp "$top/LICENSE" "$top/NOTICE" "$1"
! commit=$(git -C "$top" rev-parse HEAD 2> /dev/null) || echo "Copied from commit $commit." >> "$1/NOTICE"
echo 'Handles allowed: none.' > "$1/HANDLES"
! grep -q '^arena_pool[: ]' "$1/crates.txt" || cp "$top/HANDLES" "$1"
