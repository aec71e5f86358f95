#!/bin/sh
# Builds the page by the commands of docs/PAGE.md, and runs the tests that need only node.
# It reports what it skips, and why.
set -u
cd "$(dirname "$0")/.." || exit 1

if ! command -v node > /dev/null; then
    echo "page: skipped: node isn't there"
elif ! lacking=$(page/build.sh --needs 2>&1); then
    echo "page: skipped: the module can't be built: ${lacking#page: }"
else
    scripts/documents.py run docs/PAGE.md && node page/test.mjs
fi
