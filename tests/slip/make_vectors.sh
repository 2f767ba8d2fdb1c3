#!/bin/sh
# Makes the stored slips of slip_vectors again, from the repository's root: tests/slip/make_vectors.sh
# Needs cargo, rustc and python3. The print-outs are those of oracle/; tests/README.md has the format, under 'Stored slips'.
set -eu
cd "$(dirname "$0")/../.."
data=crates/slip_vectors/data out=target/tests
mkdir -p "$data" "$out"
cargo build --quiet --offline --release --manifest-path oracle/Cargo.toml
${RUSTC:-rustc} --edition 2024 -O --extern oracle=oracle/target/release/liboracle.rlib -o "$out/slip_make_vectors" tests/slip/vectors.rs
python3 examples/slip.py write <tests/slip/events.txt >"$out/events.slip"
"$out/slip_make_vectors" "$data" "$out/events.slip"
