#!/bin/sh
# Runs a program that holds a static library of ours against the Rust (oracle/), from the repository's root:
#     tests/against_rust.sh NAME [CRATE [PROGRAM [ARGUMENT..]]]
# builds crates/CRATE (NAME_c if it is not given; or several, as one word) and tests/NAME/PROGRAM.rs (bench) and runs it, behind the words of UNDER if there are any (valgrind, perf).
# Needs rt, cargo and rustc on x86-64.
set -eu
cd "$(dirname "$0")/.."
name=$1 crates=${2:-$1_c} program=${3:-bench} linked=
shift $(($# < 3 ? $# : 3))
out=target/tests
mkdir -p "$out"
cargo build --quiet --offline --release --manifest-path oracle/Cargo.toml
for crate in $crates; do
    tests/build.sh library "$crate"
    linked="$linked -l static=$crate"
done
# shellcheck disable=SC2086
${RUSTC:-rustc} --edition 2024 -O -L native=target/staticlib $linked --extern oracle=oracle/target/release/liboracle.rlib -o "$out/${name}_$program" "tests/$name/$program.rs"
${UNDER-} "$out/${name}_$program" "$@"
