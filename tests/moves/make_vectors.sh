#!/bin/sh
# Makes the stored slips of move_vectors and form_read_vectors again, from the repository's root: tests/moves/make_vectors.sh
# Needs cargo. oracle/README.md has the formats.
set -eu
cd "$(dirname "$0")/../.."
oracle() {
    cargo run --quiet --offline --release --manifest-path oracle/Cargo.toml -- "$@"
}
mkdir -p crates/move_vectors/data crates/form_read_vectors/data
oracle stored moves >crates/move_vectors/data/moves
oracle stored reads >crates/form_read_vectors/data/reads
