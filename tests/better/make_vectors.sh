#!/bin/sh
# Makes the stored cases of better_vectors again, from the repository's root: tests/better/make_vectors.sh
# Needs cargo. The answers are those of oracle/, the Rust with the scope's readings of hypot, min and max.
set -eu
cd "$(dirname "$0")/../.."
mkdir -p crates/better_vectors/data
cargo run --quiet --offline --release --manifest-path oracle/Cargo.toml -- vectors better 1 6000 >crates/better_vectors/data/better
