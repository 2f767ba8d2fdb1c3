#!/bin/sh
# Makes the stored runs of heap_vectors again, from the repository's root: tests/heap/make_vectors.sh
# Needs rustc. The answers are those of std's BinaryHeap with the order of exact.rs.
set -eu
cd "$(dirname "$0")/../.."
out=target/tests
mkdir -p "$out" crates/heap_vectors/data
${RUSTC:-rustc} --edition 2024 -O -A dead_code -o "$out/make_heap_vectors" tests/heap/make_vectors.rs
"$out/make_heap_vectors" crates/heap_vectors/data
