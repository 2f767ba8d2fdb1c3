#!/bin/sh
# Makes the stored lists of candidates again, from the repository's root: tests/trim/make_vectors.sh
# Needs cargo and python3. The answers are those of oracle/; make_vectors.py has the format.
set -eu
cd "$(dirname "$0")/../.."
made=$(mktemp -d)
trap 'rm -rf "$made"' EXIT
oracle() { cargo run --quiet --offline --release --manifest-path oracle/Cargo.toml -- vectors "$@"; }
data=crates/trim_vectors/data
mkdir -p "$data"
oracle add-scope 1 4 >"$made/scope"
oracle add 7 180 >"$made/short"
# many windows on one edge; edges of both the least and the greatest length; then sources that are no numbers or infinite
for seed in 6 24 14 30; do
    oracle add-long $seed 1 >"$made/long$seed"
done
python3 tests/trim/make_vectors.py "$made/scope" >"$data/scope"
python3 tests/trim/make_vectors.py "$made/short" >"$data/short"
python3 tests/trim/make_vectors.py "$made/long6" "$made/long24" >"$data/long"
python3 tests/trim/make_vectors.py "$made/long14" "$made/long30" >"$data/wild"
