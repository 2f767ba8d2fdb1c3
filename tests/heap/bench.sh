#!/bin/sh
# Times the queue against std's BinaryHeap, 1 million operations at each length, from the repository's root: tests/heap/bench.sh
# Needs rt and rustc on x86-64.
set -eu
cd "$(dirname "$0")/../.."
out=target/tests
mkdir -p "$out"
tests/build.sh library heap_c
${RUSTC:-rustc} --edition 2024 -O -A dead_code -L native=target/staticlib -l static=heap_c -o "$out/heap_bench" tests/heap/bench.rs
"$out/heap_bench"
