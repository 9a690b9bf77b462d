#!/usr/bin/env bash
# Times the one-block hash and f1 in the proved crates against plain Rust of the same steps, by turns; f1 also against one
# that makes no block of the stream that it does not need; then fx and verify.
set -eu
here="$(cd "$(dirname "$0")" && pwd)"
top="$(cd "$here/../.." && pwd)"
work="$(mktemp -d)"
trap 'rm -rf "$work"' EXIT
mkdir -p "$work/crates/bench_entries/src"
for crate in pos_bits pos_blake3 pos_tuple pos_order pos_verify; do cp -r "$top/crates/$crate" "$work/crates/"; done
cp "$here/program.txt" "$work/crates/bench_entries/src/main.rt"
grep -E '^pos_(bits|blake3|tuple|order|verify):' "$top/crates.txt" > "$work/crates.txt"
printf 'bench_entries: pos_blake3 pos_tuple pos_verify\n' >> "$work/crates.txt"
. "$top/bench/compare.sh"
compare bench_entries 15
