#!/usr/bin/env bash
# Times the one-block hash, eight hashes side by side and eight entries of tables 2 to 7 at sizes 20 and 32 in the proved
# crates against plain Rust with the same lanes, by turns. The time is that of one hash or one entry. The plain side takes
# its vectors from the standard library's `portable_simd`, which its compiler gives out under RUSTC_BOOTSTRAP alone.
set -eu
here="$(cd "$(dirname "$0")" && pwd)"
top="$(cd "$here/../.." && pwd)"
work="$(mktemp -d)"
trap 'rm -rf "$work"' EXIT
mkdir -p "$work/crates/bench_lanes/src"
for crate in pos_bits pos_blake3 pos_tuple pos_lanes; do cp -r "$top/crates/$crate" "$work/crates/"; done
grep -E '^pos_(bits|blake3|tuple|lanes):' "$top/crates.txt" > "$work/crates.txt"
printf 'bench_lanes: pos_blake3 pos_tuple pos_lanes\n' >> "$work/crates.txt"
cp "$here/program.txt" "$work/crates/bench_lanes/src/main.rt"
export RUSTC_BOOTSTRAP=1
. "$top/bench/compare.sh"
compare bench_lanes "${1:-15}"
