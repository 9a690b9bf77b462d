#!/usr/bin/env bash
# Times find, proof_at and quality_at over a real plot file of size 18 in either layout, and the three parts of the reading of a
# park, in the proved crates against plain Rust of the same steps, by turns. The plain side first makes the files, by plain loops. What is
# taken is the time that the processor spent on a run, of the program and of the system for it: the least of some runs.
set -eu
here="$(cd "$(dirname "$0")" && pwd)"
top="$(cd "$here/../.." && pwd)"
turns="${1:-7}"
work="$(mktemp -d)"
trap 'rm -rf "$work"' EXIT
crate="$work/crates/bench_harvest"
mkdir -p "$crate/src"
names='pos_lists pos_bits pos_blake3 pos_edge pos_points pos_host pos_tuple pos_rice pos_order pos_verify pos_laws pos_gate pos_layout pos_reader pos_harvest'
for name in $names; do cp -r "$top/crates/$name" "$work/crates/"; done
grep -E "^(${names// /|}):" "$top/crates.txt" > "$work/crates.txt"
echo 'bench_harvest: pos_edge pos_host pos_tuple pos_rice pos_layout pos_reader pos_harvest' >> "$work/crates.txt"
cp "$here/program.txt" "$crate/src/main.rt"
for name in spans first_places proofs qualities; do
    mkdir -p "$crate/proofs/$name"
    sed "s/FUNCTION/$name/" "$here/invariants.txt" > "$crate/proofs/$name/Invariants.antt"
done
mkdir -p "$crate/proofs/reads"
cp "$here/reads_invariant.txt" "$crate/proofs/reads/Invariants.antt"
rustc --edition 2024 -O -C target-cpu=x86-64-v2 -o "$work/plain" "$here/main.rs"
cd "$work"
./plain make
cp one two "$crate/"
(cd "$crate" && rt run -- find two > "$work/first.txt" 2> "$work/log.txt") || { tail -60 "$work/log.txt"; exit 1; }
# Both answer the same.
for word in find proof_at quality_at read sha256 decode; do
    for file in one two; do cmp <(./plain "$word" "$file") <("$crate/out/bench_harvest" "$word" "$file"); done
done
TIMEFORMAT='%U %S'
took() {
    { time "$@" > /dev/null; } 2>&1
}
for _ in $(seq "$turns"); do
    for word in find:2000 proof_at:60 quality_at:600 read:100000 sha256:10000 decode:10000; do
        for file in one two; do
            echo "plain ${word%:*},$file:${word#*:} $(took ./plain "${word%:*}" "$file")"
            echo "proved ${word%:*},$file:${word#*:} $(took "$crate/out/bench_harvest" "${word%:*}" "$file")"
        done
    done
done > runs.txt
awk -v turns="$turns" '
    { split($2, call, ":"); side = $1 " " call[1]; ns = ($3 + $4) * 1e9 / call[2]
      if (!(side in least) || ns < least[side]) least[side] = ns; if (!seen[call[1]]++) order[++count] = call[1] }
    END { print "ns a call, least of " turns " runs: plain Rust, proved, ratio"
          for (i = 1; i <= count; i++) { a = least["plain " order[i]]; b = least["proved " order[i]]
              printf "%-14s %9.0f %9.0f %6.2f\n", order[i], a, b, b / a } }' runs.txt
