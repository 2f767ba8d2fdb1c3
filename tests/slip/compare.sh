#!/bin/sh
# Compares the print-outs of fieldslip with those of oracle/, outside the gate, from the repository's root: tests/slip/compare.sh [SEED [COUNT [LEAF]]]
# So many fresh slips (20,000), a third of them damaged (the leaf slips) or all (damaged-slips). Prints how many there were of each answer, and how many were printed otherwise.
# Needs rt, cargo and python3.
set -eu
cd "$(dirname "$0")/../.."
cargo build --quiet --offline --release --manifest-path oracle/Cargo.toml
tests/build.sh program fieldslip
oracle/target/release/oracle vectors "${3:-slips}" "${1:-1}" "${2:-20000}" | python3 tests/slip/compare.py target/bin/fieldslip
