#!/bin/sh
# Runs a command and puts what it prints into docs/BENCHMARKS.md, between the lines '<!-- NAME -->' and '<!-- end -->':
#     tests/record.sh NAME COMMAND..        from the repository's root
set -eu
name=$1
shift
made=$(mktemp) && page=$(mktemp)
trap 'rm -f "$made" "$page"' EXIT
"$@" >"$made"
awk -v name="$name" -v made="$made" '
    $0 == "<!-- end -->" { skip = 0 }
    !skip { print }
    $0 == "<!-- " name " -->" { found = skip = 1; while ((getline line < made) > 0) print line }
    END { exit !found }
' docs/BENCHMARKS.md >"$page"
cat "$page" >docs/BENCHMARKS.md
