#!/bin/sh
# Counts the instructions of the library's insertion of lines and how many reads and writes miss the caches, from the repository's root: tests/insertion/profile.sh
# valgrind simulates caches of 32 KiB and 1 MiB. Needs valgrind and python3 beside what tests/against_rust.sh needs; takes some minutes.
set -eu
here=$(dirname "$0")
made=$(mktemp -d)
trap 'rm -rf "$made"' EXIT
UNDER="valgrind -q --tool=callgrind --cache-sim=yes --D1=32768,8,64 --LL=1048576,8,64 --toggle-collect=sirmolaat_insert --dump-after=sirmolaat_insert --callgrind-out-file=$made/call" \
    "$here/../against_rust.sh" insertion insert_c bench once >"$made/jobs"
python3 "$here/profile.py" "$made"
