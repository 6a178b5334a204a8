#!/bin/sh
# Builds the library for C: crate tautrobin_c, under the name that C callers link.
set -eu
cd "$(dirname "$0")/.."
(cd crates/tautrobin_c && rt lib)
mkdir -p target/staticlib
cp crates/tautrobin_c/out/libtautrobin_c.a target/staticlib/libtautrobin.a
