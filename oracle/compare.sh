#!/bin/sh
# Builds the proved code as libraries, and compares it with the published Rust and with the oracle's own reader and calls, bit for bit.
set -eu
cd "$(dirname "$0")/.."
scripts/staticlib probe
scripts/staticlib smoother
./smooth --build
cd oracle
cargo build --release --bins
for run in arith utils "utils --faults" jobs "jobs --faults" totals "totals --faults" "sheets --compare" "sheets --faults" "calls --compare" "calls --faults" planes "planes --faults" tapes "tapes --faults" segments "segments --faults" stitches "stitches --faults" mild; do
    # shellcheck disable=SC2086
    ./target/release/$run
done
./target/release/smooth --compare ../target/bin/smooth 20000
