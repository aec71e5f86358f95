#!/bin/bash
# Proves the crate mcf_c, with all crates below it, and builds from it, in bin/module/, libmcf_c.a for
# x86-64 and module.ll, its LLVM module, for other machines. What is there stays while no source, no
# kit and not this script changes, so `make library` and `make page` compile the crate once.
# bin/mcf_c.log has the output for mcf_c; scripts/build.py proves the crates below, if that isn't
# done.
#
# The kit's compiler turns the crates into one LLVM module, and passes that to clang for x86-64. This
# script keeps a copy of the module, and refuses it if it has code that only runs on x86-64. Its
# functions keep no attribute that names a processor.
set -euo pipefail
cd "$(dirname "$0")/.."
stop() { echo "module: $1" >&2; exit 3; }
kit=$(dirname "$(rt doc)") made=$PWD/bin/module sources="$(scripts/build.py --stamp mcf_c) $(sha256sum < scripts/module.sh)"
[ "$(cat "$made/sources" 2> /dev/null)" != "$sources" ] || exit 0
scratch=$(mktemp -d)
trap 'rm -rf "$scratch"' EXIT
rm -rf "$made"
mkdir -p "$made"

read -ra crates < <(sed -n 's/^mcf_c staticlib: //p' crates.txt)
scripts/build.py mcfcheck mcf "${crates[@]}"

# This toolchain has a clang that keeps a copy of the module that it compiles.
mkdir -p "$scratch/toolchain/bin"
ln -s "$kit/toolchain/lib" "$scratch/toolchain/lib"
for name in rattle-x64 ld.lld llvm-ar; do ln -s "$(realpath "$kit/toolchain/bin/$name")" "$scratch/toolchain/bin/$name"; done
cat > "$scratch/toolchain/bin/clang" << END
#!/bin/bash
for word in "\$@"; do case "\$word" in *.bc) cp "\$word" "$scratch/module.bc" ;; esac; done
exec -a clang "$kit/toolchain/bin/clang" "\$@"
END
chmod +x "$scratch/toolchain/bin/clang"

# This is what `rt lib` does, but incremental, and with this toolchain.
libraries=(-L dependency=out/rlib)
for crate in "${crates[@]}"; do
    libraries+=(--extern "$crate=out/rlib/$crate.rlib")
done
log=$PWD/bin/mcf_c.log
(cd crates/mcf_c && "$kit/bin/rattle" build --crate-name mcf_c src/lib.rt --extern "std=$kit/rlibs/std.rlib" -L "dependency=$kit/rlibs" "${libraries[@]}" \
    --antt-project "$kit/rattle/logic/antt-project.json" --logic-built "$kit/logic_built" --incremental out/incremental --links mcf_c= \
    --jobs 2 --crate-type staticlib --toolchain "$scratch/toolchain" --backend llvm -o "$made/libmcf_c.a" > "$log" 2>&1) || stop "mcf_c isn't proved, or not built; see bin/mcf_c.log"
test -f "$scratch/module.bc" || stop "the kit's compiler handed no LLVM module to clang; see bin/mcf_c.log"

(exec -a clang "$kit/toolchain/bin/clang" --target=x86_64-unknown-linux-gnu -S -emit-llvm -x ir -Xclang -disable-llvm-passes "$scratch/module.bc" -o "$made/module.ll")
if grep -nE '@llvm\.x86\.|\basm (sideeffect|inteldialect|alignstack|")|x86_(fp80|amx)' "$made/module.ll" >&2; then
    stop "these lines of the crate's LLVM module are for x86-64 alone"
fi
sed -i '/^attributes/s/ "\(target-cpu\|target-features\|tune-cpu\)"="[^"]*"//g' "$made/module.ll"
echo "$sources" > "$made/sources"
