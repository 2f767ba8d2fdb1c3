#!/bin/sh
# Compares insertion with oracle/ on random jobs, outside the gate, from the repository's root: tests/insertion/compare.sh [FIRST [ROUNDS]]
# A round has seeds of its own: 500 small jobs, and six on meshes of 400 to 2,000 triangles with 12 to 60 lines. Prints how many there were of both, and how many were
# answered otherwise. Needs rt and cargo.
set -eu
cd "$(dirname "$0")/../.."
first=${1:-1000} rounds=${2:-400}
cargo build --quiet --offline --release --manifest-path oracle/Cargo.toml
tests/build.sh program insert_vectors
here=$PWD
made=$(mktemp -d)
trap 'rm -rf "$made"' EXIT
cd "$made"
oracle() { "$here/oracle/target/release/oracle" stored insert "$@"; }
for round in $(seq "$first" $((first + rounds - 1))); do
    oracle small $((500 * round)) 500 >small
    {
        oracle terrain 2000 40 1e7 "$round"
        oracle sphere 2000 30 1e7 "$round"
        oracle ruled 1000 12 1e7 "$round"
        oracle noisy 400 60 1e7 "$round"
        oracle box 1200 40 10 "$round"
        oracle mould 800 40 1e7 "$round"
    } >large
    "$here/target/bin/insert_vectors"
done | awk '{ cases[$1] += $2; differences[$1] += $4 } END { for (k in cases) print k, cases[k], "cases,", differences[k], "differences" }' | sort
