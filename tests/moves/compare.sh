#!/bin/sh
# Compares moves of slips and their reading through the static library with oracle/, from the repository's root: tests/moves/compare.sh [FIRST [COUNT]]
# Needs rt, cargo and rustc on x86-64.
set -eu
cd "$(dirname "$0")/../.."
exec tests/against_rust.sh moves moves_c compare "$@"
