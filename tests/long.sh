#!/usr/bin/env bash
# long.sh SECONDS [SEED]: random tables of every kind for that long, and one line of figures. It needs the archive.
set -euo pipefail
cd "$(dirname "$0")"
cargo run --quiet --release --offline --locked --bin long -- "${@:?long.sh SECONDS [SEED]}"
