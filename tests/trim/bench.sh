#!/bin/sh
# Times lists of additions against the Rust's `add` on the candidates and pops of real fields, from the repository's root: tests/trim/bench.sh
exec "$(dirname "$0")/../against_rust.sh" trim
