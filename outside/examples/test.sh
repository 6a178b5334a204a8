#!/bin/sh
# The example must print what is stored.
set -eu
cd "$(dirname "$0")/../.."
printed=$(outside/examples/run.sh)
[ "$printed" = "$(cat outside/examples/evening.txt)" ] || { echo "$printed"; exit 1; }
echo "two seats show what they should"
