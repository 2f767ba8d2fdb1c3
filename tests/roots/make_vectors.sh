#!/bin/sh
# Makes the stored cases of sqrt_vectors and hypot_vectors again, from the repository's root: tests/roots/make_vectors.sh
# Needs a C compiler and MPFR (Debian: gcc, libmpfr-dev) on x86-64. The answers are the processor's and MPFR's.
set -eu
cd "$(dirname "$0")/../.."
out=target/tests
mkdir -p "$out" crates/sqrt_vectors/data crates/hypot_vectors/data
${CC:-cc} -O2 -std=gnu11 -Wall -Wextra -Werror -ffp-contract=off -o "$out/make_vectors" tests/roots/make_vectors.c -lmpfr -lgmp -lm
"$out/make_vectors" crates/sqrt_vectors/data crates/hypot_vectors/data
