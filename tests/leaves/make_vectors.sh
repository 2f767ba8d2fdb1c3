#!/bin/sh
# Makes the stored cases of leaf_vectors again, from the repository's root: tests/leaves/make_vectors.sh
# Needs cargo. The answers are those of oracle/, the Rust with the scope's readings of hypot, min, max and powi.
set -eu
cd "$(dirname "$0")/../.."
data=crates/leaf_vectors/data
mkdir -p "$data"
oracle() { cargo run --quiet --offline --release --manifest-path oracle/Cargo.toml -- vectors "$@"; }
oracle propagate 1 2000 >"$data/propagate"
oracle point 1 1500 >"$data/point"
oracle segment 1 2500 >"$data/segment"
oracle emit 1 500 >"$data/emit"
oracle entry 1 1500 >"$data/entry"
