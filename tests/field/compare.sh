#!/bin/sh
# Compares whole jobs with oracle/, from the repository's root: tests/field/compare.sh [FIRST [COUNT [WORKSHOP]]]
# So many small jobs (a million), the seeds from FIRST on, in tight and wide rooms with anything in them; then so many workshop jobs of the seeds from FIRST on, or 60 that are always the same.
# Compared are the answers, every slice, and single questions to each field. Stopped, it goes on by the seed behind the last that it told of.
exec "$(dirname "$0")/../against_rust.sh" field field_c compare all "${1:-0}" "${2:-1000000}" ${3:+"$3"}
