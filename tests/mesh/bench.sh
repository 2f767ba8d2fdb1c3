#!/bin/sh
# Times the topology against the Rust's Topology::new, from the repository's root: tests/mesh/bench.sh
exec "$(dirname "$0")/../against_rust.sh" mesh
