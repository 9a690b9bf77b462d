#!/usr/bin/env bash
# Times lists on pages, ten million records of 42 bits and of 232 bits over a real file, against plain Rust that packs
# the same bits through one page buffer, by turns.
set -eu
here="$(cd "$(dirname "$0")" && pwd)"
top="$(cd "$here/../.." && pwd)"
work="$(mktemp -d)"
trap 'rm -rf "$work"' EXIT
crate="$work/crates/bench_lists"
mkdir -p "$crate/src"
for name in pos_lists pos_bits pos_blake3 pos_edge pos_host pos_tuple pos_record pos_runs; do
    cp -r "$top/crates/$name" "$work/crates/"
done
grep -E '^(pos_lists|pos_bits|pos_blake3|pos_edge|pos_host|pos_tuple|pos_record|pos_runs):' "$top/crates.txt" > "$work/crates.txt"
echo 'bench_lists: pos_bits pos_edge pos_host pos_record pos_runs' >> "$work/crates.txt"
cp "$here/program.txt" "$crate/src/main.rt"
invariants() {
    mkdir -p "$crate/proofs/$2"
    sed "s/FUNCTION/$2/g; s/WIDTH/$3/g; s/INDEX/i/g" "$here/$1_invariants.txt" > "$crate/proofs/$2/Invariants.antt"
}
invariants push push_pairs 'pair_width 20'
invariants read read_pairs 'pair_width 20'
invariants push push_rows 'middle_width 32 3'
invariants read read_rows 'middle_width 32 3'
mkdir -p "$crate/proofs/row_of"
cp "$here/row_of_answers.txt" "$crate/proofs/row_of/Answers.antt"
cd "$work"
. "$top/bench/compare.sh"
rustc --edition 2024 -O -C target-cpu=x86-64-v2 -o "$work/plain" "$here/main.rs"
(cd "$crate" && rt run > "$work/first.txt" 2> "$work/log.txt") || { tail -60 "$work/log.txt"; exit 1; }
for _ in $(seq "${1:-5}"); do
    "$work/plain" >> "$work/plain.txt"
    rm -f bench.0 bench.1
    "$crate/out/bench_lists" >> "$work/proved.txt"
done
echo "plain Rust, least of ${1:-5} runs:"; least "$work/plain.txt"
echo "proved, least of ${1:-5} runs:"; least "$work/proved.txt"
