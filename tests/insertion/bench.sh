#!/bin/sh
# Times the insertion of pieces against the Rust's, from the repository's root: tests/insertion/bench.sh
exec "$(dirname "$0")/../against_rust.sh" insertion insert_c
