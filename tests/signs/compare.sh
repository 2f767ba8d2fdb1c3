#!/bin/sh
# Compares signs of two sources, and the bounds that they are first asked of, with oracle/, from the repository's root: tests/signs/compare.sh [SEED [MILLIONS]]
# Ten million random cases unless it says otherwise, then the windows of real fields; the latter with the share of signs that bounds decide.
exec "$(dirname "$0")/../against_rust.sh" signs signs_c compare "${1:-1}" "${2:-10}"
