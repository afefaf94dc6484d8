#!/usr/bin/env bash
# Times the proved program `classes` beside the plain Rust program on one hard board, in one run, and prints the ratio.
set -eu
cd "$(dirname "$0")/.."
work=$(mktemp -d)
trap 'rm -rf "$work"' EXIT
[ -x crates/classes/out/classes ] || (cd crates/classes && rt run < /dev/null > /dev/null)
rustc --edition 2024 -O -o "$work/plain" bench/classes.rs
python3 bench/hard.py "${1:-1}" > "$work/hard.board"
seconds() { local start end; start=$(date +%s.%N); "$1" < "$work/hard.board" > "$2"; end=$(date +%s.%N); echo "$end - $start" | bc -l; }
proved=$(seconds crates/classes/out/classes "$work/proved.out")
plain=$(seconds "$work/plain" "$work/plain.out")
cmp "$work/proved.out" "$work/plain.out"
printf 'classes, 16 inputs, 500 lines, 255 faults: proved %.2f s, plain Rust %.2f s, ratio %.2f\n' "$proved" "$plain" "$(echo "$proved / $plain" | bc -l)"
