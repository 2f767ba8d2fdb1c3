#!/bin/sh
# Makes the stored jobs of field_vectors again, from the repository's root: tests/field/make_vectors.sh
# Needs cargo. The answers are those of oracle/; oracle/README.md has the format, under 'Stored jobs'.
set -eu
cd "$(dirname "$0")/../.."
data=crates/field_vectors/data
mkdir -p "$data"
oracle() { cargo run --quiet --offline --release --manifest-path oracle/Cargo.toml -- stored field "$@"; }
# every refusal twice at least
oracle small 2700 300 >"$data/small"
# three fields of 2,000 triangles; then one that meets 13
{
    oracle terrain 2000 40 1e7 2
    oracle noisy 2000 40 1e7 3
    oracle sphere 2000 30 1e7 2
    oracle sphere 2000 30 1e7 4
} >"$data/large"
