#!/bin/sh
# Installs what is built into a separate folder, runs each tool there without the repository on the
# path, formats the manual pages, has the shells complete, and uninstalls everything, in about three
# seconds. Reports what it skips.
set -u
cd "$(dirname "$0")/.." || exit 1
top=$PWD
failed=0

fail() { echo "install-test: failed: $1"; failed=1; }
skip() { echo "install-test: skipped: $1"; }

# Runs a target of make for the folder.
made() { make --no-print-directory "$1" DESTDIR="$root" PREFIX=/usr > "$scratch/said" 2>&1 || { fail "make $1"; cat "$scratch/said"; }; }

# Runs a command with the installed tools and the system's on the path; checks its status and a
# line of its output.
step() {
    status=$1 line=$2
    shift 2
    (cd "$scratch/work" && exec timeout 30 env -i LC_ALL=C.UTF-8 PATH="$root/usr/bin:$python:/usr/bin:/bin" "$@") > "$scratch/said" 2>&1
    got=$?
    [ "$got" -eq "$status" ] && { [ -z "$line" ] || grep -qF -e "$line" "$scratch/said"; } && return
    fail "$* ended with $got and not with $status, or without: $line"
    tail -n 5 "$scratch/said"
}

programs() {
    step 0 "s 14" mcf solve transport.min
    step 0 "accepted flow 14" mcfcheck transport.min transport.ans
    step 0 "0 copy.min accepted flow 14" mcf_one copy.min
    step 0 '"cost","980"' mcfplan flow plans/transport/places.csv plans/transport/routes.csv
    step 0 '"answer","plan"' mcfplan pairs plans/roster/costs.csv
}

tools() {
    step 2 "line 1: '1x' is no whole number" mcf_explain refused-number-with-letter.min
    step 0 "plan, proved: cost" mcf_plan flow plans/transport/places.csv plans/transport/routes.csv -o flow --no-picture
    step 0 "pairs, proved: cost" mcf_plan pairs plans/roster/costs.csv -o pairs
    step 0 "0 of 15 differ." mcf_plan diff flow flow
    step 0 "0 of 15 amounts differ." mcf_plan compare flow flow
    step 0 "The tables give this answer, proved: plan, cost" mcf_plan verify flow
}

library() {
    step 0 "14 [2, 2, 2]" env PYTHONPATH="$root/usr/share/mcf/python" python3 -c '
import mcf
r = mcf.solve({"mill": 4, "shop": -4}, [("mill", "depot", 2, 1), ("mill", "shop", None, 5), ("depot", "shop", 3, 1)])
print(r.cost, r.flow)'
    command -v cc > /dev/null || { skip "a program in C: there is no cc"; return; }
    grep -qx "prefix=/usr" "$root/usr/lib/pkgconfig/mcf.pc" || fail "mcf.pc names another prefix"
    echo '#include <mcf.h>
        int main(void)
        {
            struct mcf_verdict told;
            return (int) mcf_check((const uint8_t *) "p min 0 0", 9, (const uint8_t *) "s 0", 3, &told);
        }' > "$scratch/work/c.c"
    step 0 "" cc -I "$root/usr/include" c.c -o c -L "$root/usr/lib" -lmcf
    step 0 "" env LD_LIBRARY_PATH="$root/usr/lib" ./c
}

# The completion that the shells load for each command.
completion() {
    for command in mcf mcfcheck mcfplan mcf_plan mcf_explain mcf_one; do
        step 0 "-F _mcf $command" bash -c '. "$1" && complete -p "$2"' bash "$root/usr/share/bash-completion/completions/$command" "$command"
    done
    if command -v zsh > /dev/null; then
        step 0 "_mcf _mcf _mcf _mcf _mcf _mcf" zsh -fc 'fpath=($1 $fpath); autoload -Uz compinit; compinit -u -D
            echo $_comps[mcf] $_comps[mcfcheck] $_comps[mcfplan] $_comps[mcf_plan] $_comps[mcf_explain] $_comps[mcf_one]; autoload +X _mcf' zsh "$root/usr/share/zsh/site-functions"
    else
        skip "the completion of zsh: there is no zsh"
    fi
}

# Each page at the widths of a narrow, a normal and a wide terminal.
pages() {
    for page in "$root"/usr/share/man/man1/*.1; do
        for width in 60 80 132; do
            MANWIDTH=$width timeout 30 man --warnings -E UTF-8 -l "$page" > "$scratch/page" 2> "$scratch/said" < /dev/null || fail "man $page"
            [ -s "$scratch/page" ] && [ ! -s "$scratch/said" ] || { fail "$page at $width columns"; cat "$scratch/said"; }
        done
    done
}

[ -x bin/mcf ] && [ -x bin/mcfcheck ] && [ -x bin/mcfplan ] || { skip "mcf, mcfcheck and mcfplan aren't built (make builds them)"; exit 0; }
scratch=$(mktemp -d) || exit 1
trap 'rm -rf "$scratch"' EXIT
trap 'exit 130' INT TERM HUP PIPE
root="$scratch/a folder"
mkdir "$root" "$scratch/work"
cp -R examples/* "$scratch/work"
cp examples/transport.min "$scratch/work/copy.min"
python=$(python3 -c 'import os, sys; sys.exit(1) if sys.version_info < (3, 8) else print(os.path.dirname(sys.executable))' 2> /dev/null)

made install
grep -rqF "$top" "$root" && fail "what is installed names the folder of the repository"
programs
if [ -n "$python" ]; then tools; else skip "mcf_plan and mcf_explain: there is no Python 3.8 or newer"; fi
if [ ! -e "$root/usr/lib/libmcf.so.1" ]; then skip "the library isn't built (make library builds it)"; elif [ -n "$python" ]; then library; fi
if command -v bash > /dev/null; then completion; else skip "completion: there is no bash"; fi
if [ -f bin/mcf.html ]; then cmp bin/mcf.html "$root/usr/share/mcf/mcf.html" || fail "the page"; else skip "the page isn't built (make page builds it)"; fi
if command -v man > /dev/null; then pages; else skip "the manual pages: there is no man"; fi
echo kept > "$root/usr/share/mcf/kept"
made uninstall
left=$(cd "$root" && find . ! -type d)
[ "$left" = ./usr/share/mcf/kept ] || fail "make uninstall leaves, or takes, too much: $left"
rm -f "$root/usr/share/mcf/kept"
made install
made uninstall
left=$(find "$root" ! -type d; find "$root" -path '*/share/mcf*')
[ -z "$left" ] || fail "make uninstall leaves: $left"
[ "$failed" -ne 0 ] || echo "install-test: passed"
exit $failed
