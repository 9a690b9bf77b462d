#!/usr/bin/env bash
# Times parks in the proved crates against plain Rust of the fastest form, by turns.
set -eu
here="$(cd "$(dirname "$0")" && pwd)"
top="$(cd "$here/../.." && pwd)"
work="$(mktemp -d)"
trap 'rm -rf "$work"' EXIT
mkdir -p "$work/crates/bench_parks/src" "$work/crates/bench_parks/proofs/are_numbers"
cp -r "$top/crates/pos_bits" "$top/crates/pos_rice" "$work/crates/"
cp "$here/program.txt" "$work/crates/bench_parks/src/main.rt"
sed 's/pos_rice\.proofs\.tests\.are_numbers/bench_parks.proofs.are_numbers/' "$top/crates/pos_rice/proofs/tests/are_numbers/Invariants.antt" \
    > "$work/crates/bench_parks/proofs/are_numbers/Invariants.antt"
printf 'pos_bits:\npos_rice: pos_bits\nbench_parks: pos_bits pos_rice\n' > "$work/crates.txt"
. "$top/bench/compare.sh"
compare bench_parks 25
