#!/bin/sh
# Times the proved roots beside C's, from the repository's root: tests/roots/bench.sh
# With a revision that the kit here builds, beside those of that revision: tests/roots/bench.sh REVISION (git, objcopy)
# Needs rt and a C compiler on x86-64. Prints Markdown; tests/record.sh puts it into docs/BENCHMARKS.md.
set -eu
cd "$(dirname "$0")/../.."
tests/build.sh library roots_c
out=target/tests
mkdir -p "$out"
flags='-O2 -std=gnu11 -Wall -Wextra -Werror -ffp-contract=off'
other=
if [ $# -gt 0 ]; then
    rm -rf "$out/earlier"
    mkdir "$out/earlier"
    git archive "$1" | tar -x -C "$out/earlier"
    "$out/earlier/tests/build.sh" library roots_c
    objcopy --redefine-sym sirmolaat_sqrt=earlier_sqrt --redefine-sym sirmolaat_hypot=earlier_hypot \
        "$out/earlier/target/staticlib/libroots_c.a" "$out/libearlier.a"
    other="-DEARLIER $out/libearlier.a"
fi
# shellcheck disable=SC2086
${CC:-cc} $flags -o "$out/bench" tests/roots/bench.c target/staticlib/libroots_c.a $other -lm
echo "- processor: $(lscpu | sed -n 's/^Model name: *//p')"
echo "- C library: $(getconf GNU_LIBC_VERSION)"
echo "- driver: $(${CC:-cc} --version | head -n 1), $flags"
echo "- other work as the run began: a load of $(cut -d ' ' -f 1 /proc/loadavg) on $(nproc) processors"
"$out/bench"
