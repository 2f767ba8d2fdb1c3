#!/bin/sh
# Makes the stored meshes of mesh_vectors again, from the repository's root: tests/mesh/make_vectors.sh
# Needs cargo and python3. The numbers are those of oracle/; make_vectors.py has the format.
set -eu
cd "$(dirname "$0")/../.."
made=$(mktemp -d)
trap 'rm -rf "$made"' EXIT
oracle() { cargo run --quiet --offline --release --manifest-path oracle/Cargo.toml -- vectors "$@"; }
mkdir -p crates/mesh_vectors/data
oracle topology 1 600 >"$made/small"
# a sphere, a ruled mesh with an edge in a third triangle, a terrain; then a noisy one
oracle topology-large 3 2 >"$made/large"
oracle topology-large 6 1 >"$made/terrain"
oracle topology-huge 5 1 >"$made/huge"
python3 tests/mesh/make_vectors.py crates/mesh_vectors/data "$made/small" "$made/large" "$made/terrain" "$made/huge"
