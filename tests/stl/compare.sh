#!/bin/sh
# Compares STL files read and written through the static library with a reader with a HashMap, from the repository's root: tests/stl/compare.sh [FIRST [COUNT]]
# Needs rt and rustc on x86-64.
set -eu
cd "$(dirname "$0")/../.."
out=target/tests
mkdir -p "$out"
tests/build.sh library stl_c
${RUSTC:-rustc} --edition 2024 -O -A dead_code -L native=target/staticlib -l static=stl_c -o "$out/stl_compare" tests/stl/compare.rs
"$out/stl_compare" "$@"
