#!/bin/bash
# check.sh: checks the built libraries and all over them. With the kit it builds the libraries again, and compares them byte for
# byte with those in bindings/lib; `check.sh --built` takes those as they are, and ARENA_LIBS names a folder with others. Then:
# declarations in Rattle, C and Rust; the examples of the repository through C and Rust, byte for byte; random calls; tests. It
# needs no network, and skips what needs a command that isn't there.
set -euo pipefail
here=$(dirname "$(readlink -f "$0")")
root=$(dirname "$here")
examples=$root/examples
libs=${ARENA_LIBS:-$here/lib/$(uname -m)-unknown-linux-gnu}
made=$(mktemp -d)
trap 'rm -rf "$made"' EXIT
. "$examples/checking.sh"

# has COMMAND PART: whether the command is there. If not, prints that the part is skipped.
has() {
    command -v "$1" >/dev/null || { echo "skip $2: there is no $1"; return 1; }
}

if [ "${1-}" != --built ] && [ -z "${ARENA_LIBS-}" ] && has rt 'libraries built again'; then
    for crate in arena_cursor arena_oracle; do
        "$here/lib/build.sh" --check "$crate" && true
        report "lib$crate.a, byte for byte"
    done
fi

# exports CRATE: the functions that C can call in the library of a crate.
exports() {
    nm -g --defined-only "$libs/lib$1.a" | awk '$2 == "T" { print $3 }' | grep "^$1_" | sort
}

# declared FILE..: what these files declare, in a form that is the same for all languages.
declared() {
    python3 "$here/declarations.py" "$@"
}

# compare_declarations CRATE HEADER RUST
compare_declarations() {
    local in_rattle
    in_rattle=$(declared "$root/crates/$1"/src/*.rt)
    [ "$(declared "$here/c/$2")" = "$in_rattle" ] && true
    report "declarations of $1 in C"
    [ "$(declared "$here/rust/src/$3")" = "$in_rattle" ] && true
    report "declarations of $1 in Rust"
    if [ -e "$libs/lib$1.a" ] && has nm "exports of $1"; then
        [ "$(exports "$1")" = "$(sed -n 's/^\(arena[a-z_]*\)(.*/\1/p' <<<"$in_rattle")" ] && true
        report "exports of $1"
    fi
}

if has python3 'declarations'; then
    compare_declarations arena_oracle arena_oracle.h oracle.rs
    compare_declarations arena_cursor arena_cursor.h ffi.rs
fi

# through PROGRAM LANGUAGE: the examples through a program with the words calls, draw and gen.
through() {
    local input name output
    for input in "$examples"/calls/*.txt; do
        name=$(basename "$input" .txt)
        "$1" calls <"$input" | cmp -s - "$examples/calls/$name.replies" && true
        report "$2: $name"
    done
    "$1" gen 1 1000000 | cmp -s - "$examples/generated/million.summary" && true
    report "$2: a million calls"
    "$1" draw <"$examples/picture/blocks.txt" | cmp -s - "$examples/picture/blocks.svg" && true
    report "$2: picture"
    output=$(printf 'used\nalloc x\n' | "$1" calls 2>&1) && true
    [ "$?, $output" = '2, line 2 is not understood' ] && true
    report "$2: a line that is no call"
}

# what the shortest programs print
short=$(printf 'placed 20411 refused 0\nbytes 6868686868')

if has cc 'C' && has c++ 'C' && has make 'C'; then
    make -s -C "$here/c" OUT="$made" LIBS="$libs" CFLAGS='-O2 -Werror' CXXFLAGS='-O2 -Werror' && true
    report 'C: builds'
    "$made/cursor" check 1000000 >/dev/null && true
    report 'C: a million random calls on a cursor'
    "$made/compare" 10000000 >/dev/null && true
    report 'C: ten million calls of the exports, and of others by hand'
    "$made/growing" 500 >/dev/null && true
    report 'C: random calls on the growing arena'
    "$made/growing_cpp" >/dev/null && true
    report 'C++'
    through "$made/oracle" C
    [ "$("$made/oracle" calls --budget 16320 --refuse 1 <<<'alloc 7 5 1 46')" = 'allocerr refused 1' ] && true
    report 'C: a listed request is refused'
    [ "$("$made/short")" = "$short" ] && true
    report 'C: short'
fi

if has cargo 'Rust'; then
    export ARENA_LIBS=$libs CARGO_TARGET_DIR=$made/target CARGO_NET_OFFLINE=true
    cd "$here/rust"
    # tests NAME WORDS..: cargo test with these words.
    tests() {
        cargo test -q "${@:2}" >"$made/tests" 2>&1 || { cat "$made/tests"; false; } && true
        report "Rust: $1"
    }
    tests 'tests'
    tests 'tests with the feature fast' --features fast
    tests 'tests without the oracle' --no-default-features
    RUSTC_BOOTSTRAP=1 tests "std's collections" --features nightly --test std_collections
    [ "$(cargo run -q --release --example short)" = "$short" ] && true
    report 'Rust: short'
    cargo build -q --release && through "$CARGO_TARGET_DIR/release/oracle" Rust
    if has cargo-fmt 'layout of Rust'; then
        cargo fmt --check && true
        report 'Rust: layout'
    fi
    if has cargo-clippy 'clippy'; then
        cargo clippy -q --all-targets -- -D warnings && true
        report 'Rust: clippy'
    fi
fi
exit "$failed"
