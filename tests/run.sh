#!/usr/bin/env bash
# README's commands, which build the program and the archive, then both tried on texts, from C and from Rust.
set -euo pipefail
cd "$(dirname "$0")/.."
. tests/machine.sh
tests/readme.sh
python3 tests/program.py crates/plan/out/plan
cmp examples/catalogues/english.txt crates/saying/stdin
tests/c.sh
cargo test --release --offline --locked --manifest-path tests/Cargo.toml -- --show-output
