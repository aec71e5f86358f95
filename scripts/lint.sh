#!/bin/bash
# Runs formatters, linters and type checkers over Python, JavaScript, shell and C, and looks for what
# `rt ci` refuses of the crates' files before it proves anything. It reports each missing tool and
# skips it. Debian has all except ruff and rt; black, isort and flake8 replace ruff, with the same
# rules. Settings: pyproject.toml, .flake8, jsconfig.json, .eslintrc.json, .shellcheckrc,
# .clang-format. It changes nothing; `scripts/lint.sh --fix` formats.
set -uo pipefail
cd "$(dirname "$0")/.." || exit 1
fix=${1:-}
failed=0
mapfile -t python < <(git ls-files '*.py'; git grep -lE '^#!.*python3' -- tools)
mapfile -t shells < <(git ls-files '*.sh' '*.bash'; git grep -lE '^#! ?/bin/(ba)?sh' -- tools packaging .ci)
mapfile -t c < <(git ls-files '*.c' '*.h' ':!bench')
# Debian's eslint finds its libraries there, whichever node runs it.
export NODE_PATH=${NODE_PATH:-/usr/share/nodejs}

has() { command -v "$1" > /dev/null; }

# Runs a check: its name, its tool, the command.
check() {
    local name=$1 tool=$2 said
    shift 2
    if ! has "$tool"; then
        echo "lint: skipped: $name: there is no $tool"
    elif said=$("$@" 2>&1); then
        echo "lint: $name: passed"
    else
        printf 'lint: %s: failed\n%s\n' "$name" "$said"
        failed=1
    fi
}

# Whether modules parse that await at their top, which Debian's eslint can't.
modules_parse() {
    local module failed=0
    for module in "$@"; do node --check "$module" || failed=1; done
    return $failed
}

if [ "$fix" = --fix ]; then
    if has ruff; then ruff format -q "${python[@]}" && ruff check -q --fix "${python[@]}"; else black -q "${python[@]}" && isort -q "${python[@]}"; fi
    clang-format -i "${c[@]}"
    exit
fi
if has ruff; then
    check "layout of Python" ruff ruff format --check "${python[@]}"
    check "Python" ruff ruff check "${python[@]}"
else
    check "layout of Python" black black --check -q "${python[@]}"
    check "imports of Python" isort isort --check -q "${python[@]}"
    check "Python" flake8 flake8 "${python[@]}"
fi
check "types of Python" mypy mypy --strict --cache-dir=/dev/null python/mcf
check "JavaScript" eslint eslint page/*.js
check "JavaScript of tests" node modules_parse page/*.mjs
check "types of JavaScript" tsc tsc -p jsconfig.json
check "shell" shellcheck shellcheck --severity=warning "${shells[@]}"
check "layout of Rattle, and edits" rt scripts/layout.py
check "layout of C" clang-format clang-format --dry-run -Werror "${c[@]}"
exit $failed
