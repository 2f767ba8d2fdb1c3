#!/bin/sh
# Counts how full a bucket of the edge table can be, from the repository's root: tests/mesh/worst.sh
# Needs rustc; takes about half a minute.
set -eu
cd "$(dirname "$0")/../.."
mkdir -p target/tests
${RUSTC:-rustc} --edition 2024 -O -o target/tests/worst tests/mesh/worst.rs
target/tests/worst
