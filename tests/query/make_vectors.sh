#!/bin/sh
# Makes the stored questions of query_vectors again, from the repository's root: tests/query/make_vectors.sh
# Needs cargo and rustc. The answers are those of oracle/, and of a damaged field those of tests/query/reader.rs; tests/README.md has the format, under 'Stored questions'.
set -eu
cd "$(dirname "$0")/../.."
data=crates/query_vectors/data out=target/tests
mkdir -p "$data" "$out"
cargo build --quiet --offline --release --manifest-path oracle/Cargo.toml
${RUSTC:-rustc} --edition 2024 -O --extern oracle=oracle/target/release/liboracle.rlib -o "$out/query_make_vectors" tests/query/vectors.rs
"$out/query_make_vectors" 5000 25 >"$data/small"
