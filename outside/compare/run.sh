#!/bin/sh
# Builds the comparison of the library with the second program, and runs it: CASES= and SEED= change the run. Where the
# machine runs x86-64 programs itself, a second run is under the sanitizers.
set -eu
cd "$(dirname "$0")/../.."
. outside/here.sh
sources='outside/compare/compare.c outside/second/second.c'

build() {
    $CC -std=c11 $strict -Iinclude -Ioutside/second "$@" $sources "$library"
}

build -O2 -o "$built/compare"
$RUN "$built/compare"
if [ -z "$RUN" ]; then
    build -O1 -fsanitize=address,undefined -o "$built/compare-sanitized"
    "$built/compare-sanitized" >"$built/said" || { cat "$built/said"; exit 1; }
    echo "under the sanitizers: $(head -n 1 "$built/said")"
fi
