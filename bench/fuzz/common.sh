# For the two scripts that compare an arena of ours with the real crate by a program `differ`: bench/fuzz/run.sh and
# bindings/peers/compare.sh.

# found PLANT COMMAND..: whether the command tells of a difference, as it must over a wrong arena.
found() {
    local output
    output=$("${@:2}" 2>&1) && true
    case $output in
    *DIFFER*) echo "ok   $1 is found" ;;
    *) echo "FAIL $1 isn't found: $output" && return 1 ;;
    esac
}

# fuzzed SECONDS LENGTH FOLDER WORDS..: runs `differ` under libFuzzer on inputs of up to this many bytes, led by the coverage of
# both. cargo builds it with these words in the folder, which also gets the corpus.
fuzzed() {
    local runtime flags target=x86_64-unknown-linux-gnu
    runtime=$(find /usr/lib/llvm-*/ -name 'libclang_rt.fuzzer-x86_64.a' 2>/dev/null | sort -V | tail -1)
    [ -n "$runtime" ] || { echo 'skip: there is no libFuzzer (Debian has it in libclang-rt-14-dev)'; return; }
    flags="-Cpasses=sancov-module -Cllvm-args=-sanitizer-coverage-level=4 -Cllvm-args=-sanitizer-coverage-inline-8bit-counters"
    flags="$flags -Cllvm-args=-sanitizer-coverage-pc-table -Cllvm-args=-sanitizer-coverage-trace-compares"
    RUSTFLAGS="$flags -Clink-arg=$runtime -Clink-arg=-lstdc++ -Clink-dead-code" \
        cargo build -q --release --features fuzz --target $target --target-dir "$3" "${@:4}"
    mkdir -p "$3/corpus"
    "$3/$target/release/differ" -max_total_time="$1" -max_len="$2" -artifact_prefix="$3/" "$3/corpus"
}
