#!/usr/bin/env bash
# The gate: every crate with the wrong programs, then the checks that proofs cannot reach. The last line
# is the verdict on the crates.
set -euo pipefail
cd "$(dirname "$0")/.."
verdict=$(mktemp) said=$(mktemp)
trap 'rm -f "$verdict" "$said"' EXIT

# A check, whose output is shown whole only where it fails.
check() {
    "$@" >"$said" 2>&1 || { cat "$said"; echo "FAILED: $*"; exit 1; }
    echo "$*: $(tail -n 1 "$said")"
}

rt ci 2>&1 | tee "$verdict"
! grep -Eq '^rt: ok.*, [1-9][0-9]* bad' "$verdict" || { echo 'FAILED: a must-fail edit is bad'; exit 1; }
echo
check outside/library.sh
check outside/program.sh
check outside/examples/test.sh
check outside/lists/test.sh
check outside/compare/run.sh
check outside/compare/lists.sh
check outside/compare/faults.sh
tail -n 1 "$verdict"
