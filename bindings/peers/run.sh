#!/bin/bash
# run.sh SOURCES OUT: puts our arena under other projects' code, in the folder OUT, and runs the tests that they wrote. Nothing
# of theirs is in this repository: SOURCES is a folder with their published sources,
#
#   oxc_allocator/                the crate, version 0.157.0
#   vendor/bumpalo/               version 3.12.0
#   vendor/hashbrown/ ..          what these use: hashbrown, rustc-hash, allocator-api2
#   stubs/oxc_data_structures/    of the same project as oxc_allocator, or a replacement
#
# It prints a line for each part, and the examples of bumpalo that it leaves out. What is built uses no network.
# ARENA_LIBS may name a folder with the static libraries, and FEATURES features of our crate, such as `fast`.
set -euo pipefail
here=$(dirname "$(readlink -f "$0")")
sources=$(readlink -f "$1")
mkdir -p "$2"
out=$(readlink -f "$2")
bindings=$(dirname "$here")
features=${FEATURES:+, \"$FEATURES\"}

rm -rf "$out"/{oxc_over,bumpalo_over,rig,Cargo.toml,Cargo.lock,.cargo}
mkdir -p "$out"/{.cargo,oxc_over,bumpalo_over/tests,rig/src/bin,rig/tests}
cat >"$out/.cargo/config.toml" <<T
[source.crates-io]
replace-with = "vendored"
[source.vendored]
directory = "$sources/vendor"
[net]
offline = true
# bumpalo 3.12.0 has the nightly trait alone, and asks for it.
[env]
RUSTC_BOOTSTRAP = "bumpalo,rig"
T
cat >"$out/Cargo.toml" <<T
[workspace]
resolver = "2"
members = ["oxc_over", "bumpalo_over", "rig"]

[profile.release]
codegen-units = 1

[profile.dev]
opt-level = 1
T

# oxc_allocator with its module \`arena\` replaced. Two tests make an arena at addresses that no chunk has: there the wrapper's
# inner arena becomes a call of the library.
cp -r "$sources/oxc_allocator/." "$out/oxc_over"
chmod -R u+w "$out/oxc_over"
rm -f "$out"/oxc_over/src/arena/{alloc,alloc_impl,chunks,create,drop,from_raw_parts,utils}.rs
cp "$here/oxc_arena.rs" "$out/oxc_over/src/arena/mod.rs"
python3 "$here/fake_addresses.py" "$out/oxc_over/src/arena/tests_alloc.rs"
sed -i -e 's/^name = "oxc_allocator"/name = "oxc_over"/' -e "s|\.\./stubs|$sources/stubs|" \
    -e "s|^\[dependencies\]|&\narena-bindings-api2 = { path = \"$bindings/rust-api2\", features = [\"allocator-api2\"$features] }|" \
    "$out/oxc_over/Cargo.toml"

# bumpalo with \`Bump\` replaced, its own tests below, and the examples of its documentation as tests.
cp "$here/bumpalo_lib.rs" "$out/bumpalo_over/lib.rs.start"
cp -r "$sources/vendor/bumpalo/src" "$out/bumpalo_over"
chmod -R u+w "$out/bumpalo_over"
{
    cat "$out/bumpalo_over/lib.rs.start"
    echo 'const OVERHEAD: usize = 64;'
    sed -n '/^#\[cfg(test)\]$/,$p' "$out/bumpalo_over/src/lib.rs" |
        sed '/Uses private type `ChunkFooter`/,/^    }$/d'
} >"$out/bumpalo_over/lib.rs"
mv "$out/bumpalo_over/lib.rs" "$out/bumpalo_over/src/lib.rs"
rm "$out/bumpalo_over/lib.rs.start"
python3 "$here/doctests.py" "$sources/vendor/bumpalo" >"$out/bumpalo_over/tests/docs.rs"
cat >"$out/bumpalo_over/Cargo.toml" <<T
[package]
name = "bumpalo_over"
version = "3.12.0"
edition = "2021"
publish = false

[lib]
doctest = false

[features]
default = ["collections", "boxed"]
collections = []
boxed = []

[dependencies]
arena-bindings-api2 = { path = "$bindings/rust-api2", features = ["allocator-api2"$features] }

[lints.rust]
dangerous_implicit_autorefs = "allow"
T

# The comparison with the real crates, their speed, and collections of hashbrown.
cp "$here"/rig/{differ,speed}.rs "$out/rig/src/bin"
cp "$here/rig/maps.rs" "$out/rig/tests"
touch "$out/rig/src/lib.rs"
cat >"$out/rig/Cargo.toml" <<T
[package]
name = "rig"
version = "0.1.0"
edition = "2024"
publish = false

[features]
fuzz = []

[dependencies]
arena-bindings-api2 = { path = "$bindings/rust-api2", features = ["allocator-api2"$features] }
oxc_allocator = { path = "$sources/oxc_allocator", features = ["testing"] }
allocator-api2 = { version = "0.2", default-features = false, features = ["alloc"] }
hashbrown = { version = "*", default-features = false, features = ["inline-more", "allocator-api2"] }
bumpalo = { version = "3", features = ["collections"] }
bumpalo_over = { path = "../bumpalo_over" }
oxc_over = { path = "../oxc_over", features = ["testing"] }
T

cd "$out"
export CARGO_NET_OFFLINE=true
status=0
# part NAME COMMAND..: the counts of its tests.
part() {
    local name=$1 said
    shift
    if said=$("$@" 2>&1); then
        awk -v name="$name" '/^test result/ { passed += $4; failed += $6; ignored += $8 } END { print name ": " passed " passed, " failed " failed, " ignored " ignored" }' <<<"$said"
    else
        printf '%s\n' "$said" | tail -40
        echo "$name: failed"
        status=1
    fi
}
part 'oxc_allocator: tests' cargo test -q -p oxc_over --features testing,bitset
part 'bumpalo: tests' cargo test -q -p bumpalo_over --lib
part 'bumpalo: examples' cargo test -q -p bumpalo_over --test docs
sed -n 's|^// skipped |  left out: |p' bumpalo_over/tests/docs.rs
part 'hashbrown: collections in the arena' cargo test -q -p rig --test maps
exit "$status"
