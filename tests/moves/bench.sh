#!/bin/sh
# Times the moves of 100 MB of slips, from the repository's root: tests/moves/bench.sh [ROUNDS]
# Needs rt, cargo and rustc on x86-64.
set -eu
cd "$(dirname "$0")/../.."
exec tests/against_rust.sh moves moves_c bench "$@"
