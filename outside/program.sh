#!/bin/sh
# Builds the step-list program, and puts it where the scripts look for it.
set -eu
cd "$(dirname "$0")/.."
(cd crates/steplist && rt run </dev/null >/dev/null)
mkdir -p target/bin
cp crates/steplist/out/steplist target/bin/steplist
