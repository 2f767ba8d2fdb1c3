#!/bin/sh
# Compares the proved roots with the processor's square root and MPFR's hypotenuse, from the repository's root:
#     tests/roots/compare.sh [MILLIONS]      10 million cases of each function unless it says otherwise
# Needs rt, a C compiler and MPFR (Debian: gcc, libmpfr-dev) on x86-64. The exit status is 1 where a case differs.
set -eu
cd "$(dirname "$0")/../.."
tests/build.sh library roots_c
out=target/tests
mkdir -p "$out"
${CC:-cc} -O2 -std=gnu11 -Wall -Wextra -Werror -ffp-contract=off -o "$out/compare" tests/roots/compare.c target/staticlib/libroots_c.a -lmpfr -lgmp -lm
exec "$out/compare" "${1:-10}"
