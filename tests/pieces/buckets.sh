#!/bin/sh
# Counts how full the buckets of the pieces' ends get, from the repository's root: tests/pieces/buckets.sh
# Needs cargo and rustc; takes some seconds.
set -eu
cd "$(dirname "$0")/../.."
mkdir -p target/tests
cargo build --quiet --offline --release --manifest-path oracle/Cargo.toml
${RUSTC:-rustc} --edition 2024 -O --extern oracle=oracle/target/release/liboracle.rlib -o target/tests/buckets tests/pieces/buckets.rs
target/tests/buckets
