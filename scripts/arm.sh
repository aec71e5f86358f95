#!/bin/bash
# usage: scripts/arm.sh MODULE LIBRARY
#
# Builds the C library for Linux on 64-bit ARM from an LLVM module of scripts/module.sh. The kit's
# clang compiles it for aarch64, library/heap.c takes the place of the kit's allocator, and
# aarch64-linux-gnu-gcc (Debian: gcc-aarch64-linux-gnu) links both.
set -euo pipefail
cd "$(dirname "$0")/.."
clang=$(dirname "$(rt doc)")/toolchain/bin/clang module=$1 library=$2 scratch=$(mktemp -d)
trap 'rm -rf "$scratch"' EXIT

sed -e 's/^target datalayout = .*/target datalayout = "e-m:e-p270:32:32-p271:32:32-p272:64:64-i8:8:32-i16:16:32-i64:64-i128:128-n32:64-S128-Fn32"/' \
    -e 's/^target triple = .*/target triple = "aarch64-unknown-linux-gnu"/' "$module" > "$scratch/module.ll"
(exec -a clang "$clang" --target=aarch64-unknown-linux-gnu -O3 -fPIC --no-default-config -Werror -c -x ir "$scratch/module.ll" -o "$scratch/module.o")
aarch64-linux-gnu-gcc -O2 -std=c99 -Wall -Wextra -Werror -fPIC -c library/heap.c -o "$scratch/heap.o"
aarch64-linux-gnu-gcc -shared -o "$library" -Wl,-soname,libmcf.so.1 -Wl,-z,text,-z,defs,-z,relro,-z,now \
    -Wl,--version-script=library/libmcf.map "$scratch/module.o" "$scratch/heap.o"
