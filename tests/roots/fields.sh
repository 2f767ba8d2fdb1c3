#!/bin/sh
# Times whole jobs with these roots and with those of an earlier revision that the kit here proves, by turns in one run, from the repository's root: tests/roots/fields.sh REVISION [SHAPE LINES TURNS]
# Both libraries are of this revision but for the crates of the roots. ARCHIVES names a folder that has both (now.a, earlier.a); without it they are proved and made by rt,
# the one with the earlier roots in a copy of its own, which takes as long as a first check of all below field_c.
# Needs git, objcopy, cargo and rustc on x86-64. Prints Markdown; tests/record.sh puts it into docs/BENCHMARKS.md.
set -eu
cd "$(dirname "$0")/../.."
out=target/tests
roots='int_root sqrt_hypot'
mkdir -p "$out"
revision=$1
shift
archives=${ARCHIVES-}
if [ -z "$archives" ]; then
    archives=$out/archives copy=$out/copy
    rm -rf "$archives" "$copy"
    mkdir -p "$archives" "$copy"
    git archive HEAD crates crates.txt | tar -x -C "$copy"
    for crate in $roots; do
        rm -rf "$copy/crates/$crate"
        git archive "$revision" "crates/$crate" | tar -x -C "$copy"
        line=$(git show "$revision:crates.txt" | grep "^$crate:")
        sed -i "s/^$crate:.*/$line/" "$copy/crates.txt"
    done
    (cd "$copy/crates/field_c" && rt lib >&2)
    tests/build.sh library field_c
    cp "$copy/crates/field_c/out/libfield_c.a" "$archives/earlier.a"
    cp target/staticlib/libfield_c.a "$archives/now.a"
fi
nm -g --defined-only "$archives/earlier.a" | sed -n 's/.* T sirmolaat_\(.*\)/sirmolaat_\1 earlier_\1/p' >"$out/names"
objcopy --redefine-syms="$out/names" "$archives/earlier.a" "$out/libearlier.a"
cp "$archives/now.a" "$out/libnow.a"
sed 's/sirmolaat_/earlier_/g' tests/field/library.rs >"$out/earlier.rs"
cargo build --quiet --offline --release --manifest-path oracle/Cargo.toml
${RUSTC:-rustc} --edition 2024 -O -L native="$out" -l static=now -l static=earlier --extern oracle=oracle/target/release/liboracle.rlib -o "$out/roots_fields" tests/roots/fields.rs
"$out/roots_fields" "$@"
