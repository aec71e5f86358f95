#!/bin/sh
# Runs the tests of python/ and tools/, if Python 3.8 is installed and the programs are built. They
# take some three minutes, and may take eight. MCF_BIN names the folder of the programs, by default
# bin/. Reports what it skips.
set -u
cd "$(dirname "$0")/.." || exit 1
export MCF_BIN="${MCF_BIN:-$PWD/bin}"

if [ ! -x "$MCF_BIN/mcf" ] || [ ! -x "$MCF_BIN/mcfcheck" ] || [ ! -x "$MCF_BIN/mcfplan" ]; then
    echo "tools-test: skipped: mcf, mcfcheck and mcfplan aren't built (make builds them)"
elif ! python3 -c 'import sys; sys.exit(sys.version_info < (3, 8))' 2> /dev/null; then
    echo "tools-test: skipped: there is no Python 3.8 or newer"
else
    timeout 480 python3 python/tests/run.py || { echo "tools-test: failed (status $?; 124 is eight minutes)"; exit 1; }
fi
