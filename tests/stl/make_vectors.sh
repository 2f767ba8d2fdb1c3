#!/bin/sh
# Makes the stored files and meshes of stl_vectors again, from the repository's root: tests/stl/make_vectors.sh
# Needs python3. make_vectors.py has the format.
set -eu
cd "$(dirname "$0")/../.."
mkdir -p crates/stl_vectors/data
python3 tests/stl/make_vectors.py crates/stl_vectors/data
