#!/bin/sh
# hypot of the patched reading against MPFR: check.sh [SEED [COUNT]].
# Needs a C compiler and MPFR's headers (Debian: libmpfr-dev).
set -eu
cd "$(dirname "$0")/.."
cargo build --offline --release --quiet
cc -O2 -Wall -o target/check-mpfr mpfr/check.c -lmpfr -lgmp -lm
./target/release/oracle pairs "${1:-1}" "${2:-12000000}" | ./target/check-mpfr
