#!/bin/sh
# Compares the functions of sources with oracle/ on random cases, outside the gate, from the repository's root: tests/source/compare.sh [FIRST [ROUNDS [LEAF..]]]
# A round is a seed of its own and 5,000 cases of each function, or of those that are named: of the others the first round's stand again and do not count. Prints each function's cases and differences.
# Needs rt and cargo.
set -eu
cd "$(dirname "$0")/../.."
first=${1:-1000} rounds=${2:-200}
shift $(($# < 2 ? $# : 2))
every='roots ties edge free foot lowest eval'
named=${*:-$every}
cargo build --quiet --offline --release --manifest-path oracle/Cargo.toml
tests/build.sh program source_vectors
here=$PWD
made=$(mktemp -d)
trap 'rm -rf "$made"' EXIT
cd "$made"
make() { # LEAF SEED
    "$here/oracle/target/release/oracle" vectors "$1" "$2" 5000 >"$1"
}
for leaf in $every; do make "$leaf" "$first"; done
for seed in $(seq "$first" $((first + rounds - 1))); do
    for leaf in $named; do make "$leaf" "$seed"; done
    "$here/target/bin/source_vectors"
done | awk -F': ' -v named=" $named " 'index(named, " " $1 " ") { split($2, n, " "); cases[$1] += n[1]; differences[$1] += n[3] } END { for (k in cases) print k ":", cases[k], "cases,", differences[k], "differences" }' | sort
