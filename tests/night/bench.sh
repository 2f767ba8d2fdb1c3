#!/bin/sh
# The package in rust/ beside the Rust, from the repository's root: tests/night/bench.sh [MESHES FIELDS], tests/night/bench.sh ratios [SHAPE TRIANGLES LINES], tests/night/bench.sh compare
# A night of the workshop, 40 meshes and 600 fields on two threads if no others are named; or a table of ratios of topology, insertion, fields, single questions and memory, of 96 workshop jobs or of one;
# or a comparison of the fields of these 96 with the Rust's as document 01 reads it, bit for bit.
# Needs rt and cargo.
set -eu
cd "$(dirname "$0")/../.."
program=night
case ${1-} in
    ratios | compare)
        program=$1
        shift
        ;;
esac
CARGO_TARGET_DIR=target/cargo exec cargo run --quiet --offline --release --manifest-path tests/night/Cargo.toml --bin "$program" -- "$@"
