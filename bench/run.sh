#!/usr/bin/env bash
# Proves and builds the library of the proved calls, builds the plain implementation with it, compares the two and times them.
#     bench/run.sh [COUNT] [SEED]
set -euo pipefail
cd "$(dirname "$0")"
(cd ../crates/bridge && rt lib | tail -n 1)
cd link
cargo build --quiet --release
target/release/compare "${1:-50000}" "${2:-1}"
target/release/measure
