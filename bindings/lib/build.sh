#!/bin/bash
# build.sh [CRATE..]: proves and builds the static libraries of these crates, or of both, for each target, and writes them to
# bindings/lib/TARGET, the toolchain's verdicts to VERDICT, and checksums to SHA256SUMS.
# build.sh --check [CRATE..]: does the same in a folder of its own, and compares. Prints nothing if all is the same. Skipped with
# another kit, which may compile other bytes.
# build.sh --bitcode FILE CRATE: writes what the toolchain gives clang for x86-64, to compile it otherwise.
# The libraries below a crate are those that `rt ci` or `rt check` left in crates/*/out. JOBS is how many functions are proved
# at a time, KEPT a folder that keeps what was proved for the next run.
set -euo pipefail
here=$(dirname "$(readlink -f "$0")")
root=$(dirname "$(dirname "$here")")
kit=$(dirname "$(dirname "$(readlink -f "$(command -v rt)")")")
work=$(mktemp -d)
trap 'rm -rf "$work"' EXIT
kept=${KEPT:-$work/kept}
tools=$kit/toolchain

# rlib CRATE: where the library of a crate is, which is one of this repository or of the kit.
rlib() {
    if [ -d "$root/crates/$1" ]; then echo "$root/crates/$1/out/rlib/$1.rlib"; else echo "$kit/rlibs/$1.rlib"; fi
}

# made CRATE TARGET TO: proves and builds one library. What one target proved serves the other.
made() {
    local name said words=(-L "dependency=$kit/rlibs")
    for name in std $(sed -n "s/^$1 staticlib: *//p" "$root/crates.txt"); do
        [ -e "$(rlib "$name")" ] || { echo "there is no $(rlib "$name"): rt check in crates/$1 builds it" && return 1; }
        words+=(--extern "$name=$(rlib "$name")")
    done
    for name in "$root"/crates/*/out/rlib; do words+=(-L "dependency=$name"); done
    mkdir -p "$3/$2" "$kept/$1"
    said=$(cd "$root/crates/$1" && "$kit/bin/rattle" build --crate-name "$1" src/lib.rt "${words[@]}" --links "$1=" \
        --antt-project "$kit/rattle/logic/antt-project.json" --logic-built "$kit/logic_built" --jobs "${JOBS:-2}" \
        --incremental "$kept/$1" --toolchain "$tools" --backend llvm --crate-type staticlib --target "$2" \
        -o "$3/$2/lib$1.a" 2>&1 </dev/null) || { printf '%s\n' "$said" "lib$1.a isn't built for $2" && exit 1; }
    sed -n "s/^\(logic=proved .*target=[^ ]*\).*/$1 $2: \1/p" <<<"$said" >>"$work/VERDICT"
}

if [ "${1-}" = --bitcode ]; then
    # A toolchain of links, but for a clang that first keeps what it is given.
    tools=$work/toolchain
    cp -rs "$kit/toolchain/." "$tools"
    rm "$tools/bin/clang"
    cat >"$tools/bin/clang" <<E
#!/bin/bash
for word; do case \$word in *.bc) cp "\$word" "$work/module.bc" ;; esac; done
exec -a "\$0" "$kit/toolchain/bin/clang" "\$@"
E
    chmod +x "$tools/bin/clang"
    made "$3" x86_64-unknown-linux-gnu "$work"
    cp "$work/module.bc" "$2"
    exit
fi

to=$here
if [ "${1-}" = --check ]; then
    to=$work && shift
    grep -qxF "kit: $(rt version)" "$here/VERDICT" || { echo "skipped: bindings/lib was built by another kit" && exit; }
fi
[ $# -gt 0 ] || set -- arena_cursor arena_oracle
for crate; do
    for target in aarch64-unknown-linux-gnu x86_64-unknown-linux-gnu; do made "$crate" "$target" "$to"; done
done
cd "$here"
if [ "$to" = "$here" ]; then
    for crate; do sed -i "/^$crate /d; /^kit: /d" VERDICT; done
    echo "kit: $(rt version)" | sort -o VERDICT VERDICT "$work/VERDICT" -
    sha256sum -- */*.a >SHA256SUMS
    exit
fi
status=0
for crate; do
    for library in */"lib$crate.a"; do cmp "$work/$library" "$library" || status=1; done
done
grep -vxFf VERDICT "$work/VERDICT" && echo 'bindings/lib/VERDICT lacks this' && status=1
sha256sum --quiet -c SHA256SUMS || status=1
[ $status = 0 ] || echo 'bindings/lib/build.sh builds the libraries again'
exit $status
