#!/bin/sh
# Makes anew the lists of the Rust's answers that the crates `replay`, `replay_calls`, `replay_leaves` and `replay_pictures` replay inside the gate, and what they must write.
set -eu
cd "$(dirname "$0")"
out=../crates/replay
{
    cargo run -q --release --bin arith -- --list 3000
    cargo run -q --release --bin utils -- --list 64
    cargo run -q --release --bin sheets -- --list 120 1
} > $out/stdin
echo "$(wc -l < $out/stdin) same, 0 other" > $out/stdout
out=../crates/replay_calls
{
    cargo run -q --release --bin calls -- --list 600 1
    cargo run -q --release --bin runs
} > $out/stdin
echo "$(wc -l < $out/stdin) same, 0 other" > $out/stdout
out=../crates/replay_leaves
{
    cargo run -q --release --bin tapes -- --list 300 1
    cargo run -q --release --bin segments -- --list 200 1
    cargo run -q --release --bin stitches -- --list 120 1
} > $out/stdin
echo "$(wc -l < $out/stdin) same, 0 other" > $out/stdout
# texts, each after its length, and what the published Rust makes of them
out=../crates/replay_pictures
pack=$(mktemp -d)
cargo run -q --release --bin smooth -- --pack 400 20261116 "$pack" 3
cp "$pack/texts" $out/stdin
cp "$pack/answers" $out/stdout
rm -r "$pack"
