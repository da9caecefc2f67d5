#!/bin/bash
# Builds the page into the folder `made`: the module arena.wasm, and the page's files next to it.
#
# The kit compiles no library for wasm64 that takes memory. So the proved library is built for x86-64, and the intermediate code
# that clang is given for that is compiled for wasm64: both have 64-bit pointers and the same alignments. The kit makes no claim
# about this.
set -euo pipefail
here=$(dirname "$(readlink -f "$0")")
kit=$(dirname "$(dirname "$(readlink -f "$(command -v rt)")")")
clang=$kit/toolchain/bin/clang
made=$here/made
work=$(mktemp -d)
trap 'rm -rf "$work"' EXIT
mkdir -p "$made"
"$here/../lib/build.sh" --bitcode "$work/module.bc" arena_oracle

cd "$work"
target=(--target=wasm64-unknown-unknown -mcpu=mvp -mbulk-memory -mbulk-memory-opt -msign-ext -mmutable-globals -mnontrapping-fptoint
    -mllvm -expand-div-rem-bits=64 -ffunction-sections -fdata-sections --no-default-config -fintegrated-cc1)
layout='e-m:e-p:64:64-p10:8:8-p20:8:8-i64:64-i128:128-n32:64-S128-ni:1:10:20'
"$clang" -x ir module.bc -S -emit-llvm -o module.ll --target=x86_64-unknown-linux-gnu
sed -e "s/^target datalayout = .*/target datalayout = \"$layout\"/" -e 's/^target triple = .*/target triple = "wasm64-unknown-unknown"/' \
    -e 's/ "\(probe-stack\|stack-probe-size\|target-cpu\)"="[^"]*"//g' module.ll >wasm64.ll
if grep -n x86 wasm64.ll >&2; then
    echo 'the intermediate code has parts of x86-64' >&2
    exit 1
fi
"$clang" "${target[@]}" -O3 -c -x ir wasm64.ll -o oracle.o
"$clang" "${target[@]}" -O2 -fwrapv -ffreestanding -nostdinc -c "$here/wide.c" -o wide.o
"$clang" "${target[@]}" -O2 -ffreestanding -nostdinc -c "$here/heap.c" -o heap.o
mapfile -t exports < <(sed -n 's/^define [^@]*@\(arena_oracle_[a-z]*\)(.*/--export=\1/p' wasm64.ll)
"$kit/toolchain/bin/ld.lld" -flavor wasm -mwasm64 --no-entry --stack-first -z stack-size=1048576 --export=__heap_base "${exports[@]}" \
    --gc-sections --strip-all -o "$made/arena.wasm" oracle.o wide.o heap.o
python3 "$here/sections.py" "$made/arena.wasm"
cp "$here"/{index.html,examples.html,arena.js,examples.js} "$made"
echo "$made"
