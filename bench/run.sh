#!/usr/bin/env bash
# Builds the archive, then times its planner beside Rust planners that scan all cells in each slot.
set -euo pipefail
cd "$(dirname "$0")/.."
(cd crates/panel && rt lib)
cargo run --quiet --release --offline --locked --manifest-path bench/Cargo.toml
