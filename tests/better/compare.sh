#!/bin/sh
# Compares `better`, and both tests of ranges before it, with oracle/ on random cases, outside the gate, from the repository's root:
#     tests/better/compare.sh [FIRST [ROUNDS]]
# A round is a seed of its own: 3,000 cases as the stored ones are, and 3,000 of sources whose ranges are apart, touch or just overlap. Each is asked of
# `better` alone and behind each of the two tests. Prints cases and differences. Needs rt and cargo.
set -eu
cd "$(dirname "$0")/../.."
first=${1:-1000} rounds=${2:-170}
cargo build --quiet --offline --release --manifest-path oracle/Cargo.toml
tests/build.sh program better_vectors
here=$PWD
made=$(mktemp -d)
trap 'rm -rf "$made"' EXIT
cd "$made"
for seed in $(seq "$first" $((first + rounds - 1))); do
    for leaf in better ranges; do
        "$here/oracle/target/release/oracle" vectors "$leaf" "$seed" 3000 >better
        "$here/target/bin/better_vectors"
    done
done | awk -F': ' '{ split($2, n, " "); cases[$1] += n[1]; differences[$1] += n[3] } END { for (k in cases) print k ":", cases[k], "cases,", differences[k], "differences" }' | sort
