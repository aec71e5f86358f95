#!/bin/bash
# This script builds bin/mcf.wasm, the module of the page, from the proved crate mcf_c. Of the
# crate's exports it keeps mcf_solve, mcf_check, mcf_plan_flow and mcf_plan_pairs.
#
# scripts/module.sh gives the LLVM module of the crate and of all crates below it. This script
# compiles it for wasm64 with the kit's clang. Binaryen then lowers addresses to 32 bits, so that
# browsers without memory64 run it, and shortens the code. heap.c replaces the heap of the C
# library. LLVM's own library has the functions that compiled code calls by name (the product of 128
# bits and the like).
#
# It needs rt on the path, wasm-opt (Debian: binaryen) and libclang_rt.builtins-wasm64.a (Debian:
# libclang-rt-dev-wasm64; BUILTINS names another file); page/pack.py needs esbuild (Debian:
# esbuild). With --needs it only says which of these is missing. It first proves and builds what
# isn't yet proved and built.
set -euo pipefail
cd "$(dirname "$0")/.."
stop() { echo "page: $1" >&2; exit 3; }

command -v rt > /dev/null || stop "rt isn't on the path; it comes with the Rattle kit"
command -v wasm-opt > /dev/null || stop "wasm-opt isn't on the path (Debian: binaryen)"
builtins=${BUILTINS:-$(find /usr/lib/llvm-* /usr/lib/clang -name libclang_rt.builtins-wasm64.a 2> /dev/null | sort -V | tail -1)}
test -f "$builtins" || stop "libclang_rt.builtins-wasm64.a isn't there (Debian: libclang-rt-dev-wasm64)"
command -v esbuild > /dev/null || stop "esbuild isn't on the path (Debian: esbuild)"
test "${1:-}" != --needs || exit 0
kit=$(dirname "$(rt doc)") scratch=$(mktemp -d)
trap 'rm -rf "$scratch"' EXIT
mkdir -p bin

scripts/module.sh || stop "there is no LLVM module"

# This step changes the module's target to wasm64: triple and layout. It also removes the stack
# probes, since the stack has the lowest addresses.
clang=$kit/toolchain/bin/clang
sed -e 's/^target datalayout = .*/target datalayout = "e-m:e-p:64:64-p10:8:8-p20:8:8-i64:64-i128:128-n32:64-S128-ni:1:10:20"/' \
    -e 's/^target triple = .*/target triple = "wasm64-unknown-unknown"/' \
    -e '/^attributes/s/ "\(probe-stack\|stack-probe-size\)"="[^"]*"//g' bin/module/module.ll > "$scratch/module.ll"
wasm=(--target=wasm64-unknown-unknown -mcpu=lime1 -mllvm -expand-div-rem-bits=64 -mllvm -expand-fp-convert-bits=64 -mllvm -trap-unreachable
    -ffunction-sections -fdata-sections --no-default-config -Werror)
"$clang" "${wasm[@]}" -O3 -c -x ir "$scratch/module.ll" -o "$scratch/module.o"
"$clang" "${wasm[@]}" -O2 -ffreestanding -nostdinc -c page/heap.c -o "$scratch/heap.o"
(exec -a wasm-ld "$clang" -flavor wasm -mwasm64 --no-entry --stack-first -z stack-size=1048576 --gc-sections --fatal-warnings --max-memory=4227858432 --strip-all \
    --export=mcf_solve --export=mcf_check --export=mcf_plan_flow --export=mcf_plan_pairs --export=page_alloc --export=page_peak -o "$scratch/mcf64.wasm" \
    "$scratch/module.o" "$scratch/heap.o" "$builtins") || stop "the module can't be linked"
wasm-opt "$scratch/mcf64.wasm" --enable-memory64 --enable-bulk-memory --enable-sign-ext --enable-nontrapping-float-to-int \
    --enable-mutable-globals --enable-multivalue --memory64-lowering -O2 -o bin/mcf.wasm
rt version > bin/page.kit
