#!/bin/sh
# Makes the stored jobs of job_vectors again, from the repository's root: tests/jobs/make_vectors.sh
# Needs cargo and python3. The refusals are document 01's, by hand, and those of oracle/; make_jobs.py has both.
set -eu
cd "$(dirname "$0")/../.."
made=$(mktemp -d)
trap 'rm -rf "$made"' EXIT
data=crates/job_vectors/data
mkdir -p "$data"
cargo run --quiet --offline --release --manifest-path oracle/Cargo.toml -- vectors topology 1 400 >"$made/topology"
python3 tests/jobs/make_jobs.py >"$data/jobs"
python3 tests/jobs/make_jobs.py "$made/topology" >"$data/meshes"
