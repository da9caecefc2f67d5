#!/bin/sh
# Checks that each relative link in the pages leads to a file or a folder, and to a heading where it names one. Prints those that don't,
# and exits with 1 then.
set -eu
cd "$(dirname "$(dirname "$(readlink -f "$0")")")"
failed=0

# has PAGE NAME: whether the page has a heading of this name, as a forge makes it: lower case, hyphens for spaces, no other signs.
has() {
    sed -n 's/^##* //p' "$1" | tr '[:upper:] ' '[:lower:]-' | sed 's/[^a-z0-9_-]//g' | grep -qx "$2"
}

for page in *.md docs/*.md docs/*/*.md crates/*/*.md bench/*/*.md; do
    links=$(awk '
        /^```/ { code = !code; next }
        !code {
            gsub(/`[^`]*`/, "")
            while (match($0, /\]\([^) ]+\)/)) {
                print substr($0, RSTART + 2, RLENGTH - 3)
                $0 = substr($0, RSTART + RLENGTH)
            }
        }' "$page")
    for link in $links; do
        case $link in http*) continue ;; esac
        path=${link%%#*}
        to=$(dirname "$page")/$path
        [ -n "$path" ] || to=$page
        [ -e "$to" ] && case $link in *.md#* | '#'*) has "$to" "${link#*#}" ;; esac || {
            echo "$page: $link leads nowhere"
            failed=1
        }
    done
done
exit $failed
