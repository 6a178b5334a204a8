#!/bin/sh
# Walks a step list, and shows what it prints.
set -eu
list=$(realpath "$1")
cd "$(dirname "$0")/../.."
. outside/here.sh
$RUN target/bin/steplist <"$list"
