#!/bin/sh
# Runs the programs and the tools of the path on the examples of one folder, with results in
# another. scripts/dist_test.sh calls it for each package.
#
#     scripts/dist_used.sh EXAMPLES FOLDER
set -eu
unset PYTHONPATH MCF_LIBRARY
examples=$1
out=$2

mcf solve "$examples/transport.min" > "$out/transport.ans"
[ "$(mcfcheck "$examples/transport.min" "$out/transport.ans")" = "accepted flow 14" ]
sed 's/^s 14$/s 15/' "$out/transport.ans" > "$out/wrong.ans"
[ "$(mcfcheck "$examples/transport.min" "$out/wrong.ans")" = "rejected cost" ]
mcf_plan flow "$examples/plans/transport/places.csv" "$examples/plans/transport/routes.csv" -o "$out/plan"
cmp "$out/plan/flows.csv" "$examples/plans/transport/expected/flows.csv"
cp "$examples/transport.min" "$out/one.min"
[ "$(mcf_one "$out/one.min")" = "0 $out/one.min accepted flow 14" ]
mcf_explain "$examples/transport.min"
