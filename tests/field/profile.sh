#!/bin/sh
# Where the instructions of one whole job go, and how often each function is called, from the repository's root: tests/field/profile.sh SHAPE TRIANGLES LINES LIMIT
# A function that is inlined counts as part of its caller. Needs valgrind and python3 beside what tests/against_rust.sh needs; some fifty times slower than the job.
set -eu
here=$(dirname "$0")
made=$(mktemp)
trap 'rm -f "$made"' EXIT
UNDER="valgrind -q --tool=callgrind --toggle-collect=sirmolaat_compute --callgrind-out-file=$made" "$here/../against_rust.sh" field 'field_c insert_c advance_c' bench alone "$@" 1 >&2
python3 "$here/profile.py" "$made"
