#!/usr/bin/env bash
# The example calls in the READMEs of crates/ compile: `checks/examples.sh [NAME..]`, those of all crates if none is named.
# checks/examples.py makes a module of each README. One scratch program has them all, and is compiled without proof over
# the libraries that they name. So this says that the calls fit, and not that a caller meets what they require.
set -euo pipefail
cd "$(dirname "$0")/.."
. checks/scratch_crate.sh

modules=$(mktemp -d)
trap 'rm -rf "$modules"' EXIT
libraries=$(python3 checks/examples.py "$modules" "$@")
scratch_crate examples "$modules" $libraries
trap 'rm -rf "$modules" "$work"' EXIT

# The program does nothing, so its run takes no time; the modules are compiled all the same.
if ! rt try --steps 1 < /dev/null > "$work/log" 2>&1; then
    sed 's|src/\([a-z0-9_]*\)_readme\.rt|crates/\1/README.md|g' "$work/log" >&2
    exit 1
fi
echo "the example calls of $(ls src | grep -c '_readme\.rt$') READMEs compile"
