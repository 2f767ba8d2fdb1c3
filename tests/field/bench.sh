#!/bin/sh
# Times whole jobs against the published Rust's Field::compute, from the repository's root: tests/field/bench.sh [SHAPE TRIANGLES LINES LIMIT]
exec "$(dirname "$0")/../against_rust.sh" field 'field_c insert_c advance_c' bench "$@"
