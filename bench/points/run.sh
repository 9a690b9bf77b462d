#!/usr/bin/env bash
# Times line points in the proved crate against plain Rust of the same steps, by turns.
set -eu
here="$(cd "$(dirname "$0")" && pwd)"
top="$(cd "$here/../.." && pwd)"
work="$(mktemp -d)"
trap 'rm -rf "$work"' EXIT
mkdir -p "$work/crates/bench_points/src"
cp -r "$top/crates/pos_points" "$work/crates/"
cp "$here/program.txt" "$work/crates/bench_points/src/main.rt"
printf 'pos_points:\nbench_points: pos_points\n' > "$work/crates.txt"
. "$top/bench/compare.sh"
compare bench_points 25
