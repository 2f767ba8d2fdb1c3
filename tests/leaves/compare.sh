#!/bin/sh
# Compares the leaves on values with oracle/ on random cases, outside the gate, from the repository's root: tests/leaves/compare.sh [FIRST [ROUNDS]]
# A round is a seed of its own and as many cases as one file holds. Prints each function's cases and differences. Needs rt and cargo.
set -eu
cd "$(dirname "$0")/../.."
first=${1:-1000} rounds=${2:-100}
cargo build --quiet --offline --release --manifest-path oracle/Cargo.toml
tests/build.sh program leaf_vectors
here=$PWD
made=$(mktemp -d)
trap 'rm -rf "$made"' EXIT
cd "$made"
for seed in $(seq "$first" $((first + rounds - 1))); do
    for leaf in propagate:2400 point:1500 segment:3800 emit:6500 entry:2800; do
        # shellcheck disable=SC2094 # the first is the leaf's name, the last a file of that name
        "$here/oracle/target/release/oracle" vectors "${leaf%:*}" "$seed" "${leaf#*:}" >"${leaf%:*}"
    done
    "$here/target/bin/leaf_vectors"
done | awk '{ cases[$1] += $2; differences[$1] += $4 } END { for (k in cases) print k, cases[k], "cases,", differences[k], "differences" }' | sort
