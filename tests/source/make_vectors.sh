#!/bin/sh
# Makes the stored cases of source_vectors again, from the repository's root: tests/source/make_vectors.sh
# Needs cargo. The answers are those of oracle/, the Rust with the scope's readings of hypot, min and max.
set -eu
cd "$(dirname "$0")/../.."
mkdir -p crates/source_vectors/data
for leaf in roots ties edge free foot lowest eval; do
    cargo run --quiet --offline --release --manifest-path oracle/Cargo.toml -- vectors "$leaf" 1 5000 >"crates/source_vectors/data/$leaf"
done
