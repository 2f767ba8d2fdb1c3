#!/bin/sh
# Makes the stored jobs of insert_vectors again, from the repository's root: tests/insertion/make_vectors.sh
# Needs cargo. The answers are those of oracle/; oracle/README.md has the format, under 'Stored jobs'.
set -eu
cd "$(dirname "$0")/../.."
data=crates/insert_vectors/data
mkdir -p "$data"
oracle() { cargo run --quiet --offline --release --manifest-path oracle/Cargo.toml -- stored insert "$@"; }
oracle small 1 300 >"$data/small"
# four that are inserted; then one that meets 12 and one that meets 17
{
    oracle terrain 2000 40 1e7 2
    oracle sphere 2000 30 1e7 3
    oracle ruled 1000 20 1e7 3
    oracle noisy 400 60 1e7 2
    oracle box 1200 40 10 9
    oracle noisy 400 60 1e7 8
} >"$data/large"
