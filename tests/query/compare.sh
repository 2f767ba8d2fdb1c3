#!/bin/sh
# Compares rows of questions to fields with oracle/, from the repository's root: tests/query/compare.sh [FIRST [COUNT]]
# Some 150 questions to each field of so many small jobs (50,000), the seeds from FIRST on; then the fields of a fortieth of them, damaged in every word, against what the rooms say.
exec "$(dirname "$0")/../against_rust.sh" query query_c compare all "${1:-0}" "${2:-50000}"
