#!/bin/sh
# Times reading STL files against a reader with a HashMap, from the repository's root: tests/stl/bench.sh [ROUNDS]
# Needs rt and rustc on x86-64.
set -eu
cd "$(dirname "$0")/../.."
out=target/tests
mkdir -p "$out"
tests/build.sh library stl_c
${RUSTC:-rustc} --edition 2024 -O -A dead_code -L native=target/staticlib -l static=stl_c -o "$out/stl_bench" tests/stl/bench.rs
"$out/stl_bench" "$@"
