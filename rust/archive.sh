#!/bin/sh
# Makes target/staticlib/libsirmolaat.a, one archive with every function of docs/ABI.md: sh rust/archive.sh
# Needs rt, and ar of GNU binutils.
set -eu
cd "$(dirname "$0")/.."
# the crates whose exports rust/src/ffi.rs declares; an object has nothing else that the others could see
crates='field_c query_c insert_c advance_c stl_c moves_c'
# shellcheck disable=SC2086
tests/build.sh library $crates
cd target/staticlib
rm -f libsirmolaat.a
{
    echo create libsirmolaat.a
    for crate in $crates; do echo "addlib lib$crate.a"; done
    echo save
    echo end
} | ar -M
