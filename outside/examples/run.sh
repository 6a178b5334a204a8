#!/bin/sh
# Builds the example over the library and runs it.
set -eu
cd "$(dirname "$0")/../.."
. outside/here.sh
$CC -std=c99 -O2 $strict -Iinclude -o "$built/evening" outside/examples/evening.c "$library"
$RUN "$built/evening"
