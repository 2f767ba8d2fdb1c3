#!/bin/sh
# Proves and builds by rt, from anywhere:
#     tests/build.sh library CRATE..   static libraries, target/staticlib/libCRATE.a
#     tests/build.sh program CRATE..   programs, target/bin/CRATE
set -eu
cd "$(dirname "$0")/.."
kind=$1
shift
mkdir -p target/staticlib target/bin
for crate in "$@"; do
    case $kind in
        library)
            # insert_c and advance_c are libraries for turns_laws: insert_export and advance_export have their exports
            built=$crate
            case $crate in insert_c | advance_c) built=${crate%_c}_export ;; esac
            (cd "crates/$built" && rt lib >&2)
            cp "crates/$built/out/lib$built.a" "target/staticlib/lib$crate.a"
            ;;
        program)
            # `rt run` builds a program and runs it: what it answers with no input is of no matter here. With the older program gone, `cp` fails where none is built
            rm -f "crates/$crate/out/$crate"
            (cd "crates/$crate" && rt check >&2 && { rt run </dev/null >/dev/null 2>&1 || true; })
            cp "crates/$crate/out/$crate" target/bin/
            ;;
        *)
            echo 'tests/build.sh library|program CRATE..' >&2
            exit 2
            ;;
    esac
done
