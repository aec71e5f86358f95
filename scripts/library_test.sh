#!/bin/bash
# Tests the library of bin/, as make library leaves it, from C, C++, Rust and Python, if their
# compiler or interpreter is installed; also by the tests of networkx and scipy, if these are
# installed. It takes some four minutes, and reports what it skips.
set -u
cd "$(dirname "$0")/.." || exit 1
top=$PWD
out=$top/bin/library
flags='-g -O1 -Wall -Wextra -Werror -pedantic -Ilibrary'
failed=0

has() { command -v "$1" > /dev/null 2>&1 || { echo "library-test: skipped: $2: there is no $1"; return 1; }; }

# Runs a step of at most three minutes, and reports its failure. On an idle machine each takes less
# than one.
step() {
    what=$1
    shift
    timeout 180 "$@" > "$out/log" 2>&1 && { said=$(tail -n 1 "$out/log"); echo "library-test: $what: ${said:-passed}"; return; }
    echo "library-test: $what: failed (status $?; 124 is three minutes)"
    tail -n 20 "$out/log"
    failed=1
}

# The examples, each after the status of its answer.
texts() {
    for file in examples/*.min examples/*.asn; do
        case $(head -c 1 "${file%.*}.ans") in s | v) echo 0 ;; i) echo 1 ;; *) echo 2 ;; esac
        echo "$file"
    done
}

# The Python of the path, and the system's, which may have other packages.
interpreters() {
    for python in python3 /usr/bin/python3; do "$python" -c 'import sys; print(sys.executable)' 2> /dev/null; done | sort -u
}

# The first interpreter that has packages.
having() {
    for python in $(interpreters); do "$python" -c "import $1" > /dev/null 2>&1 && { echo "$python"; return; }; done
    echo "library-test: skipped: $2: no Python here has $1" >&2
    return 1
}

# A Python package's own tests.
others() {
    python=$(having "$1, pytest" "what $1 tests of itself") && step "what $1 tests of itself" env MCF_LIBRARY="$top/bin/libmcf.so" "$python" python/tests/foreign.py "$1"
}

[ -f bin/libmcf.so ] && [ -f bin/libmcf.a ] || { echo "library-test: skipped: the library isn't built (make library builds it)"; exit 0; }
mkdir -p "$out"
if has cc C; then
    cc -std=c89 $flags -o "$out/calls" library/tests/calls.c -Lbin -lmcf -Wl,-rpath,"$top/bin" || failed=1
    cc -std=c99 $flags -o "$out/calls_static" library/tests/calls.c bin/libmcf.a || failed=1
    cc -std=c99 $flags -o "$out/hostile" library/tests/hostile.c -Lbin -lmcf -Wl,-rpath,"$top/bin" || failed=1
    cc -std=c99 $flags -o "$out/refuse" library/tests/refuse.c bin/libmcf.a -Wl,--wrap=malloc,--wrap=realloc,--wrap=free || failed=1
    mapfile -t texts < <(texts)
    step "calls from C, shared" "$out/calls" "${texts[@]}"
    step "calls from C, static" "$out/calls_static" "${texts[@]}"
    step "refused memory" "$out/refuse" examples/*.min examples/*.asn
    step "hostile calls" "$out/hostile" 20000 examples/*.min examples/*.asn
    if has valgrind "C under valgrind"; then
        step "calls under valgrind" valgrind -q --error-exitcode=9 --leak-check=full "$out/calls" "${texts[@]}"
        step "hostile calls under valgrind" valgrind -q --error-exitcode=9 --leak-check=full "$out/hostile" 60 examples/*.min examples/*.asn
    fi
    step "names of the static library" sh -c "nm -g --defined-only bin/libmcf.a | awk 'NF == 3 && \$3 !~ /^mcf_[a-z_]*\$/ {print; bad = 1} END {exit bad}'"
    step "exported names" sh -c "nm -D --defined-only bin/libmcf.so | awk '\$2 != \"A\" && \$3 !~ /^mcf_[a-z_]*@@MCF_1\$/ {print; bad = 1} END {exit bad}'"
fi
if [ ! -f bin/libmcf-aarch64.so ]; then
    echo "library-test: skipped: the library for ARM: it isn't built"
elif has aarch64-linux-gnu-gcc "the library for ARM" && has qemu-aarch64 "the library for ARM"; then
    mkdir -p "$out/arm" && cp bin/libmcf-aarch64.so "$out/arm/libmcf.so" && ln -sf libmcf.so "$out/arm/libmcf.so.1"
    for name in calls hostile; do
        aarch64-linux-gnu-gcc -std=c99 $flags -o "$out/arm/$name" "library/tests/$name.c" -L"$out/arm" -lmcf || failed=1
    done
    export QEMU_LD_PREFIX=/usr/aarch64-linux-gnu
    step "calls from C on ARM, emulated" qemu-aarch64 -E LD_LIBRARY_PATH="$out/arm" "$out/arm/calls" "${texts[@]}"
    step "hostile calls on ARM, emulated" qemu-aarch64 -E LD_LIBRARY_PATH="$out/arm" "$out/arm/hostile" 300 examples/*.min examples/*.asn
fi
has c++ C++ && step "the header in C++" c++ -std=c++98 -Wall -Wextra -Werror -Wno-long-long -x c++ -fsyntax-only library/mcf.h
has cargo Rust && step "Rust" env MCF_LIB_DIR="$top/bin" CARGO_TARGET_DIR="$out/rust" cargo test --offline --quiet --manifest-path library/rust/Cargo.toml
has python3 Python && { step "commands of docs/LIBRARY.md" scripts/documents.py run docs/LIBRARY.md; grep '^documents: skipped: ' "$out/log" | sed 's/^documents/library-test/'; }
for python in $(interpreters); do
    version=$("$python" -V)
    step "$version" env MCF_LIBRARY="$top/bin/libmcf.so" "$python" python/tests/library.py
    step "$version, arrays" env MCF_LIBRARY="$top/bin/libmcf.so" "$python" python/tests/arrays.py
    step "$version, problems solved again" env MCF_LIBRARY="$top/bin/libmcf.so" "$python" python/tests/problems.py
    step "$version, hostile arguments" env MCF_LIBRARY="$top/bin/libmcf.so" "$python" python/tests/hostile.py
done
python=$(having "mypy, numpy" "types of the module") && {
    step "types of the module" "$python" -m mypy --strict --cache-dir=/dev/null python/mcf python/tests/typed.py
    step "typed examples" env MCF_LIBRARY="$top/bin/libmcf.so" "$python" python/tests/typed.py
}
others networkx
others scipy
exit $failed
