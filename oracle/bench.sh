#!/bin/sh
# Builds the proved code as libraries and runs every benchmark beside the published Rust, built at its defaults; the whole run also beside the published Rust built
# for this processor (`-C target-cpu=native`). Each compares what both leave, bit for bit. For figures worth keeping run it with nothing else at work.
#
#     oracle/bench.sh [ROUNDS]      # of the jobs (25); the whole run takes a fifth of them
set -eu
rounds=${1:-25}
cd "$(dirname "$0")/.."
scripts/staticlib probe
scripts/staticlib smoother
cd oracle
cargo build --release --bins
few=$((rounds / 5 > 2 ? rounds / 5 : 3))
for run in "bench_jobs --start $few" "bench_jobs $rounds" "bench_push $((rounds * 8))" "bench_blend $rounds" "sheets --bench $rounds" "stitches --bench $rounds" "planes --bench $few"; do
    echo "== $run"
    # shellcheck disable=SC2086
    ./target/release/$run
done
echo "== planes --bench $few, the published Rust built for this processor"
RUSTFLAGS='-C target-cpu=native' CARGO_TARGET_DIR=target/native cargo build --release --bin planes
./target/native/release/planes --bench "$few"
