#!/bin/sh
# STL files of other programs read, and ours read by them, vertex for vertex, from the repository's root: tests/stl/outside.sh
# Each program that is there makes a binary file of an ASCII one; it is read and written through the static library; the program then names the points of both.
# Needs rt, rustc and python3 on x86-64, and of Debian's packages admesh, assimp-utils and python3-meshio those that are to be tried;
# ADMESH, ASSIMP and MESHIO_PYTHON name the programs.
set -eu
cd "$(dirname "$0")/../.."
admesh=${ADMESH:-admesh} assimp=${ASSIMP:-assimp} python=${MESHIO_PYTHON:-/usr/bin/python3}
out=target/tests
mkdir -p "$out"
tests/build.sh library stl_c
${RUSTC:-rustc} --edition 2024 -O -A dead_code -L native=target/staticlib -l static=stl_c -o "$out/stl_outside" tests/stl/outside.rs
made=$(mktemp -d)
trap 'rm -rf "$made"' EXIT

there() {
    case $1 in
        admesh) "$admesh" --version ;;
        assimp) "$assimp" version ;;
        meshio) "$python" -c 'import meshio' ;;
    esac >"$made/log" 2>&1
}

# binary PROGRAM FROM TO
binary() {
    case $1 in
        admesh) "$admesh" --no-check --write-binary-stl="$3" "$2" ;;
        assimp) "$assimp" export "$2" "$3" -fstlb ;;
        meshio) "$python" tests/stl/with_meshio.py write "$2" "$3" ;;
    esac >"$made/log"
}

# points PROGRAM FILE: a line for each corner of each triangle, in order
points() {
    case $1 in
        admesh) "$admesh" --no-check --write-ascii-stl="$made/text.stl" "$2" ;;
        assimp) "$assimp" export "$2" "$made/text.stl" -fstl ;;
        meshio) "$python" tests/stl/with_meshio.py points "$2" >"$made/text.stl" ;;
    esac >"$made/log"
    grep vertex "$made/text.stl"
}

for shape in sphere plate; do
    python3 tests/stl/make_ascii.py "$shape" >"$made/ascii.stl"
    for program in admesh assimp meshio; do
        if ! there "$program"; then
            echo "$shape: there is no $program"
            continue
        fi
        binary "$program" "$made/ascii.stl" "$made/theirs.stl"
        said=$("$out/stl_outside" "$made/theirs.stl" "$made/ours.stl")
        points "$program" "$made/theirs.stl" >"$made/theirs.points"
        points "$program" "$made/ours.stl" >"$made/ours.points"
        cmp "$made/theirs.points" "$made/ours.points"
        echo "$shape: $said; $(sort -u "$made/theirs.points" | wc -l) different points by $program; $program reads the same $(wc -l <"$made/ours.points") corners from ours"
    done
    echo "$shape in ASCII: $("$out/stl_outside" "$made/ascii.stl" "$made/none")"
done
