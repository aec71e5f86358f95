#!/bin/sh
# Proves and builds the crate mcf_c and all crates below it, if that isn't done, and links them into
# bin/libmcf.so and bin/libmcf.a, with the header bin/mcf.h, and builds an extension of the Python
# module, and the library for ARM. It needs rt and a C compiler. The allocator comes from the kit. The
# libraries export only the names of mcf.h.
set -eu
cd "$(dirname "$0")/.."
kit=$(dirname "$(rt doc)") built=bin/module/libmcf_c.a

scripts/module.sh
cc -shared -o bin/libmcf.so.1 -Wl,-soname,libmcf.so.1 -Wl,-z,text,-z,defs,-z,relro,-z,now -Wl,--version-script=library/libmcf.map \
    -Wl,--whole-archive "$built" -Wl,--no-whole-archive "$kit/c/liblibc_c.a"
# Copy the file instead of linking it, because the gate accepts no links in the repository.
rm -f bin/libmcf.so && cp bin/libmcf.so.1 bin/libmcf.so
# Make one object with local names for the allocator, so that a program can also link another static
# library of the kit.
ld -r -o bin/libmcf.o --whole-archive "$built" --no-whole-archive "$kit/c/liblibc_c.a"
objcopy --wildcard --keep-global-symbol='mcf_*' bin/libmcf.o
rm -f bin/libmcf.a && ar rcsD bin/libmcf.a bin/libmcf.o && rm bin/libmcf.o
cp library/mcf.h bin/mcf.h

# The extension of the Python module for small matrices, for which some CPython from 3.11 on has the
# headers.
rm -f bin/_small.abi3.so python/mcf/_small.abi3.so
for python in python3 /usr/bin/python3; do
    headers=$("$python" -c 'import sys, sysconfig
assert sys.implementation.name == "cpython" and sys.version_info >= (3, 11)
print(sysconfig.get_path("include"))' 2> /dev/null) || continue
    [ -f "$headers/Python.h" ] || continue
    cc -O2 -shared -fPIC -std=c99 -Wall -Wextra -Werror -Ilibrary -I"$headers" -o bin/_small.abi3.so library/python/small.c
    cp bin/_small.abi3.so python/mcf/_small.abi3.so
    break
done
[ -f bin/_small.abi3.so ] || echo "library: skipped: the Python module's extension for small matrices: there is no Python.h"

# The library for ARM, if there is a compiler for it.
rm -f bin/libmcf-aarch64.so
if command -v aarch64-linux-gnu-gcc > /dev/null; then
    scripts/arm.sh bin/module/module.ll bin/libmcf-aarch64.so
else
    echo "library: skipped: the library for ARM: there is no aarch64-linux-gnu-gcc"
fi
rt version > bin/library.kit
