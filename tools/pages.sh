#!/bin/bash
# Runs the commands that the pages show. A block of the kind `console` has commands after `$ `, each followed by what
# it prints on both streams; a last line `..` means that more follows. The commands run at the top of the repository,
# and their output is compared. Prints what differs, and then exits with 1. With --slow the commands of blocks of the
# kind `sh` in README.md run too, in a fresh clone with a fresh home, and each must end with status 0. That takes
# hours.
set -u
top=$(dirname "$(dirname "$(readlink -f "$0")")")
cd "$top" || exit 1
failed=0

# blocks KIND PAGE: the lines of the page's blocks of that kind.
blocks() {
    awk -v kind="$1" '/^```/ { inside = !inside && $0 == "```" kind; next } inside' "$2"
}

# shown COMMAND WANTED: runs a command and compares what it prints.
shown() {
    local printed
    printed=$(bash -c "$1" 2>&1 < /dev/null)
    case $2 in
        *$'\n..') [[ $printed == "${2%..}"* ]] && return ;;
        *) [ "$printed" = "$2" ] && return ;;
    esac
    printf '%s: %s\nprinted:\n%s\n' "$page" "$1" "$printed"
    failed=1
}

for page in *.md docs/*.md docs/*/*.md crates/*/*.md; do
    command='' wanted=''
    while IFS= read -r line; do
        case $line in
            '$ '*)
                [ -z "$command" ] || shown "$command" "${wanted%$'\n'}"
                command=${line#'$ '} wanted=
                ;;
            *) wanted+=$line$'\n' ;;
        esac
    done < <(blocks console "$page")
    [ -z "$command" ] || shown "$command" "${wanted%$'\n'}"
done

if [ "${1:-}" = --slow ]; then
    work=$(mktemp -d)
    trap 'rm -rf "$work"' EXIT
    git clone -q "$top" "$work/repository" && mkdir "$work/home" || exit 1
    while IFS= read -r line; do
        (cd "$work/repository" && HOME=$work/home bash -c "$line" < /dev/null) > "$work/printed" 2>&1 || {
            printf 'README.md: %s\n' "$line"
            tail -5 "$work/printed"
            failed=1
        }
    done < <(blocks sh README.md)
fi
exit $failed
