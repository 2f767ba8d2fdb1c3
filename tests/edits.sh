#!/bin/sh
# Tries the must-fail edits alone, from the repository's root: tests/edits.sh [CRATE..]
# of every crate, or of those named. What has not changed since it was tried is not tried again. Needs rt.
set -eu
cd "$(dirname "$0")/.."
rt must-fail "$@"
