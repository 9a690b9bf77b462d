#!/usr/bin/env bash
# Times the writer of a plot file over ten million rising numbers, on a real file and on a disk that keeps no bytes.
# Beside it stands what SHA-256 and the park code alone take: `bench/parks` has the park code.
set -eu
here="$(cd "$(dirname "$0")" && pwd)"
top="$(cd "$here/../.." && pwd)"
work="$(mktemp -d)"
trap 'rm -rf "$work"' EXIT
crate="$work/crates/bench_plot_file"
mkdir -p "$crate/src" "$crate/proofs/write_table" "$crate/proofs/write_plot"
for name in pos_lists pos_bits pos_blake3 pos_edge pos_host pos_points pos_tuple pos_rice pos_gate pos_layout; do
    cp -r "$top/crates/$name" "$work/crates/"
done
grep -E '^(pos_lists|pos_bits|pos_blake3|pos_edge|pos_host|pos_points|pos_tuple|pos_rice|pos_gate|pos_layout):' "$top/crates.txt" > "$work/crates.txt"
echo 'bench_plot_file: pos_bits pos_edge pos_host pos_points pos_tuple pos_rice pos_layout' >> "$work/crates.txt"
cp "$here/program.txt" "$crate/src/main.rt"
cp "$here/write_table_invariants.txt" "$crate/proofs/write_table/Invariants.antt"
cp "$here/write_table_answers.txt" "$crate/proofs/write_table/Answers.antt"
cp "$here/write_plot_invariants.txt" "$crate/proofs/write_plot/Invariants.antt"
cp "$here/write_plot_answers.txt" "$crate/proofs/write_plot/Answers.antt"
(cd "$crate" && rt run > "$work/first.txt" 2> "$work/log.txt") || { tail -80 "$work/log.txt"; exit 1; }
cd "$work"
for _ in $(seq "${1:-5}"); do
    rm -f p
    "$crate/out/bench_plot_file"
done
ls -l p
time -p sha256sum p
