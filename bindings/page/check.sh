#!/bin/bash
# Tries the built page (build.sh) in node and in headless chromium (Debian's package chromium): each example's text must be
# the same, byte for byte. With a path as its argument it also writes a screenshot there. Skips what isn't there.
set -euo pipefail
here=$(dirname "$(readlink -f "$0")")
made=$here/made
[ -s "$made/arena.wasm" ] || { echo 'skip page: bindings/page/build.sh makes it'; exit 0; }
failed=0

# results NAME LINES: prints the lines of a run of the examples. If one failed or there is none, the script fails.
results() {
    sed "s/^\(ok  \|FAIL\)/& $1:/" <<<"$2"
    case $2 in *FAIL*) failed=1 ;; *'ok '*) ;; *) echo "FAIL $1: not run" && failed=1 ;; esac
}

rm -rf "$made/examples"
cp -r "$here/../../examples" "$made/examples"
for input in "$made"/examples/calls/*.txt; do
    basename "$input" .txt
done >"$made/examples/names"

if command -v node >/dev/null; then
    results node "$(cd "$made" && node --experimental-wasm-memory64 -e '
        const fs = require("fs");
        const read = path => fs.readFileSync(`examples/${path}`, "utf8");
        const { loadArena } = require("./arena.js"), { runExamples } = require("./examples.js");
        loadArena(fs.readFileSync("arena.wasm"))
            .then(arena => runExamples(arena, read("names").split("\n").filter(Boolean), read))
            .then(lines => console.log(lines.join("\n")), error => console.log(`FAIL ${error}`));')"
else
    echo 'skip node: there is none'
fi

if command -v chromium >/dev/null; then
    profile=$(mktemp -d)
    python3 -u -m http.server -d "$made" -b 127.0.0.1 0 >"$profile/log" 2>&1 &
    server=$!
    trap 'kill "$server"; rm -rf "$profile"' EXIT
    until grep -qs port "$profile/log"; do sleep 0.1; done
    site=http://127.0.0.1:$(sed -n 's/.* port \([0-9]*\) .*/\1/p' "$profile/log")
    run=(chromium --headless --no-sandbox --disable-gpu --user-data-dir="$profile" --virtual-time-budget=60000)
    results chromium "$("${run[@]}" --dump-dom "$site/examples.html" 2>/dev/null | grep '^ok\|^FAIL')"
    [ $# = 0 ] || "${run[@]}" --hide-scrollbars --window-size=1300,1000 --screenshot="$1" "$site/index.html" >/dev/null 2>&1
else
    echo 'skip chromium: there is none'
fi
exit $failed
