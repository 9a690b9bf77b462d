#!/usr/bin/env bash
# Times marks over a real file: both places of 2^20 pairs marked, the marks sealed, and asked for in order, against plain
# Rust of the same steps, by turns. A piece is a pair, or a place. But for `seal`, each program takes the least of 64 chunks.
set -eu
here="$(cd "$(dirname "$0")" && pwd)"
top="$(cd "$here/../.." && pwd)"
work="$(mktemp -d)"
trap 'rm -rf "$work"' EXIT
crate="$work/crates/bench_marks"
mkdir -p "$crate/src"
for name in pos_edge pos_lists pos_host pos_marks; do cp -r "$top/crates/$name" "$work/crates/"; done
grep -E '^pos_(edge|lists|host|marks):' "$top/crates.txt" > "$work/crates.txt"
echo 'bench_marks: pos_edge pos_host pos_lists pos_marks' >> "$work/crates.txt"
cp "$here/program.txt" "$crate/src/main.rt"
invariants() {
    mkdir -p "$crate/proofs/$2"
    sed "s/FUNCTION/$2/g; s/STATE/$1/g" "$here/invariants.txt" > "$crate/proofs/$2/Invariants.antt"
}
for name in mark_chunk time_marks; do invariants AreUnsealed "$name"; done
for name in has_chunk rank_chunk time_has time_ranks; do invariants AreSealed "$name"; done
for file in "$here"/*_answers.txt; do
    name="$(basename "$file" _answers.txt)"
    mkdir -p "$crate/proofs/$name"
    cp "$file" "$crate/proofs/$name/Answers.antt"
done
. "$top/bench/compare.sh"
cd "$work"
rustc --edition 2024 -O -C target-cpu=x86-64-v2 -o "$work/plain" "$here/main.rs"
(cd "$crate" && rt run > "$work/first.txt" 2> "$work/log.txt") || { tail -60 "$work/log.txt"; exit 1; }
for _ in $(seq "${1:-7}"); do
    "$work/plain" >> "$work/plain.txt"
    rm -f bench.0
    "$crate/out/bench_marks" >> "$work/proved.txt"
done
echo "plain Rust, least of ${1:-7} runs:"; least "$work/plain.txt"
echo "proved, least of ${1:-7} runs:"; least "$work/proved.txt"
