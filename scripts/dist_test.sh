#!/bin/sh
# Installs and runs the packages of bin/dist/, as make dist leaves them, without the repository: the
# .deb in a bare Debian root, the wheel in a virtual environment, the tar.gz in a folder. Reports
# what it skips; takes two to four minutes, nearly all of them for the root.
#
# debootstrap makes the root in a temporary folder, which needs root's rights, 400 MB and Debian's
# registry; chroot enters it. What debootstrap mounts there disappears with it.
# DEBIAN_ROOT names an existing root (minbase with python3, man-db and zsh): the test then uses a
# copy of it, and no network.
set -u
cd "$(dirname "$0")/.." || exit 1
top=$PWD
dist=$top/bin/dist
failed=0
export PYTHONDONTWRITEBYTECODE=1
# The test must run the packed module and library, and no others.
unset PYTHONPATH MCF_LIBRARY

skip() { echo "dist-test: skipped: $1"; }

# Runs a step of at most ten minutes, and reports its failure.
step() {
    what=$1
    shift
    timeout 600 "$@" > "$scratch/log" 2>&1 && { echo "dist-test: $what: passed"; return 0; }
    echo "dist-test: $what: failed (status $?; 124 is ten minutes)"
    tail -n 20 "$scratch/log"
    failed=1
    return 1
}

module='
import os, mcf
r = mcf.solve([4, -4], [(0, 1, 3, 2), (0, 1, 9, 5)])
assert (r.cost, r.flow, r.verdict.accepted) == (11, [3, 1], True), r
assert mcf.linear_sum_assignment([[4, 1], [2, 0]])[1] == [1, 0]
print(os.path.dirname(mcf.__file__), mcf._library._lib._name)'

# The files of a root, without Debian's records of packages.
files_of() {
    find "$1" ! -type d -o -type d -empty | sed "s|^$1||" | grep -v -e ^/var/lib/dpkg/ -e ^/var/log/ -e ^/var/cache/ -e ^/tmp -e ^/src/ -e __pycache__ | sort
}

deb() {
    root=$scratch/root
    if [ -n "${DEBIAN_ROOT:-}" ]; then
        cp -a "$DEBIAN_ROOT" "$root" || return 1
    else
        step "a bare Debian root" unshare --mount debootstrap --variant=minbase --include=python3,man-db,zsh bookworm "$root" || return 1
    fi
    files_of "$root" > "$scratch/before"
    mkdir -p "$root/src/python/tests" "$root/src/completion"
    cp -r examples scripts/dist_used.sh "$root/src"
    cp python/tests/run.py python/tests/test_completion.py "$root/src/python/tests"
    cp "$dist"/*.deb "$root/src/package.deb"
    ln -s /usr/bin "$root/src/tools"
    ln -s /usr/share/bash-completion/completions/mcf "$root/src/completion/mcf.bash"
    ln -s /usr/share/zsh/vendor-completions/_mcf "$root/src/completion/_mcf"
    step "the .deb installed" chroot "$root" dpkg -i /src/package.deb || return 1
    [ "$(chroot "$root" mcf --version)" = "$(bin/mcf --version)" ] || { echo "dist-test: mcf --version: failed"; failed=1; }
    step "programs and tools" chroot "$root" env -u PYTHONDONTWRITEBYTECODE /src/dist_used.sh /src/examples /tmp
    step "the module" chroot "$root" env -u PYTHONDONTWRITEBYTECODE python3 -c "$module
import importlib.metadata
assert importlib.metadata.version('yokdelm') == mcf.__version__
assert any(e.name == 'mcf' for e in importlib.metadata.entry_points()['networkx.backends'])"
    step "what is said of licences" grep -q "no licence has been chosen yet" "$root/usr/share/doc/yokdelm/copyright"
    step "the linker finds the library" chroot "$root" sh -c "ldconfig -p | grep -q 'libmcf.so.1 '"
    step "manual pages" chroot "$root" sh -ec 'for page in mcf mcfcheck mcfplan mcf_plan mcf_explain mcf_one; do man "$page" | grep -q "^NAME"; done'
    step "completion" chroot "$root" env MCF_BIN=/usr/bin python3 /src/python/tests/run.py test_completion
    step "completion is loaded by bash" chroot "$root" bash -c '. /usr/share/bash-completion/completions/mcf_plan; complete -p mcf mcfcheck mcfplan mcf_plan'
    step "completion is loaded by zsh" chroot "$root" zsh -fc 'autoload -Uz compinit; compinit -u -D; [[ $_comps[mcf_plan] == _mcf ]]; autoload +X _mcf'
    step "the .deb removed" chroot "$root" dpkg -r yokdelm || return 1
    files_of "$root" > "$scratch/after"
    step "nothing is left" diff "$scratch/before" "$scratch/after"
    step "no folder is left" sh -c "! find '$root/usr' '$root/var/lib/dpkg/info' | grep -e mcf -e yokdelm"
}

wheel() {
    venv=$scratch/venv
    step "a virtual environment" python3 -m venv "$venv" || return 1
    step "the wheel installed" "$venv/bin/pip" install --no-index "$dist"/*_x86_64.whl || return 1
    step "its module" sh -c 'cd / && "$@"' sh "$venv/bin/python" -c "$module"
    grep -q "$venv.*$venv" "$scratch/log" || { echo "dist-test: the module or its library is another: $(cat "$scratch/log")"; failed=1; }
    step "its RECORD" "$venv/bin/python" -c "
import base64, hashlib, importlib.metadata
files = importlib.metadata.files('yokdelm')
assert len(files) > 10
for file in files:
    if file.hash:
        data = file.locate().read_bytes()
        assert (file.hash.mode, file.size) == ('sha256', len(data)), file
        assert file.hash.value == base64.urlsafe_b64encode(hashlib.sha256(data).digest()).rstrip(b'=').decode(), file"
    if python3 -c 'import networkx; networkx.config.backends' 2> /dev/null; then
        step "the backend of networkx" env PYTHONPATH="$(python3 -c 'import networkx, os; print(os.path.dirname(os.path.dirname(networkx.__file__)))')" \
            "$venv/bin/python" -c "
import networkx as nx
G = nx.DiGraph()
G.add_node('a', demand=-4), G.add_node('b', demand=4), G.add_edge('a', 'b', capacity=9, weight=2)
assert nx.network_simplex(G, backend='mcf') == (8, {'a': {'b': 4}, 'b': {}})
assert 'mcf' in nx.config.backends"
    else
        skip "the backend of networkx: there is no networkx 3.3"
    fi
    step "the wheel removed" "$venv/bin/pip" uninstall -y yokdelm
    step "nothing of it is left" sh -c "! find '$venv' | grep -e 'packages/mcf' -e yokdelm"
}

tarball() {
    mkdir "$scratch/else where"
    step "the tar.gz unpacked" tar -C "$scratch/else where" --strip-components=1 -xzf "$(echo "$dist"/*.tar.gz)" || return 1
    home="$scratch/else where"
    mkdir "$scratch/made"
    step "its programs and tools" env PATH="$home/bin:/usr/bin:/bin" scripts/dist_used.sh examples "$scratch/made"
    step "its module" env PYTHONPATH="$home/share/mcf/python" python3 -c "$module"
    if command -v cc > /dev/null && command -v pkg-config > /dev/null; then
        step "C by its pkg-config" sh -c "PKG_CONFIG_PATH='$home/lib/pkgconfig' pkg-config --cflags --libs mcf > '$scratch/flags' &&
            eval cc -o '$scratch/calls' '$top/library/tests/calls.c' \$(cat '$scratch/flags') && LD_LIBRARY_PATH='$home/lib' '$scratch/calls'"
    else
        skip "C by pkg-config: there is no cc, or no pkg-config"
    fi
}

# Each package of bin/dist/ must match its checksum, and another run must give the same bytes.
same() {
    step "sums" sh -c "cd '$dist' && sha256sum -c --strict SHA256SUMS"
    step "packed again" scripts/dist.py "$scratch/again"
    step "the same bytes" diff -r "$dist" "$scratch/again"
}

[ -f "$dist/SHA256SUMS" ] || { skip "no packages are made (make dist makes them)"; exit 0; }
scratch=$(mktemp -d)
trap 'rm -rf --one-file-system "$scratch"' EXIT
trap 'exit 130' INT TERM HUP
same
tarball
if python3 -c 'import sys, venv, ensurepip; sys.exit(sys.version_info < (3, 8))' 2> /dev/null; then wheel; else skip "the wheel: there is no Python 3.8 with venv"; fi
if [ ! -f "$(echo "$dist"/*.deb)" ]; then
    skip "the .deb: there is none"
elif [ "$(id -u)" != 0 ]; then
    skip "the .deb: only root may enter another root"
elif [ -z "${DEBIAN_ROOT:-}" ] && [ -n "${CI:-}" ]; then
    skip "the .deb: CI fetches nothing, and DEBIAN_ROOT names no root"
elif [ -z "${DEBIAN_ROOT:-}" ] && ! command -v debootstrap > /dev/null; then
    skip "the .deb: there is no debootstrap, and DEBIAN_ROOT names no root"
else
    deb
fi
exit $failed
