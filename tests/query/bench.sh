#!/bin/sh
# Measures rows of questions beside the published Rust's queries, from the repository's root: tests/query/bench.sh [SHAPE TRIANGLES LINES]
exec "$(dirname "$0")/../against_rust.sh" query query_c bench "$@"
