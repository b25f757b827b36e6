#!/bin/sh
# Runs `smooth` on inputs that nobody would send, and holds each answer to the grammar, to the oracle's own reader and to the published Rust.
#
#     oracle/fuzz.sh [N [PROGRAM]]      N inputs (100,000) besides the fixed ones; PROGRAM is the proved program
set -eu
count=${1:-100000}
program=${2:-}
[ -z "$program" ] || program=$(cd "$(dirname "$program")" && pwd -P)/$(basename "$program")
cd "$(dirname "$0")"
if [ -z "$program" ]; then
    ../smooth --build
    program=$PWD/../target/bin/smooth
fi
cargo build --release --bin fuzz
exec ./target/release/fuzz "$program" "$count"
