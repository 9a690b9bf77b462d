#!/usr/bin/env bash
# Times the seven tables of an id at sizes 16, 18 and 20: `forward` over real files, against plain Rust of the same steps on lists
# on pages, and against plain Rust that holds all in memory, by turns. What is taken is the time that the processor spent on a run,
# of the program and of the system for it: the least of some runs. The plain sides also say what each stage took, in their last run.
set -eu
here="$(cd "$(dirname "$0")" && pwd)"
top="$(cd "$here/../.." && pwd)"
turns="${1:-7}"
work="$(mktemp -d)"
trap 'rm -rf "$work"' EXIT
crate="$work/crates/bench_forward"
mkdir -p "$crate/src"
names='pos_lists pos_bits pos_blake3 pos_edge pos_points pos_host pos_tuple pos_record pos_runs pos_buckets pos_lanes pos_order pos_laws pos_forward'
for name in $names; do cp -r "$top/crates/$name" "$work/crates/"; done
grep -E "^(${names// /|}):" "$top/crates.txt" > "$work/crates.txt"
echo 'bench_forward: pos_edge pos_forward pos_host pos_lanes pos_record pos_runs pos_tuple' >> "$work/crates.txt"
cp "$here/program.txt" "$crate/src/main.rt"
RUSTC_BOOTSTRAP=1 rustc --edition 2024 -O -C target-cpu=x86-64-v2 -o "$work/plain" "$here/main.rs"
cd "$work"
(cd "$crate" && rt run -- 16 > "$work/first.txt" 2> "$work/log.txt") || { tail -60 "$work/log.txt"; exit 1; }
. "$top/bench/turns.sh"
for k in 16 18 20; do
    for _ in $(seq "$turns"); do
        took memory "$k" ./plain "$k" memory
        took plain "$k" ./plain "$k" pages
        rm -f bench.* plain.*
        took proved "$k" "$crate/out/bench_forward" "$k"
    done
    # All have as many entries in tables 1 and 7.
    cmp <(awk '/^entries/ { print $2, $NF }' "out.plain.$k") <(awk '/^entries/ { print $(NF - 1), $NF }' "out.proved.$k")
    cmp <(grep '^entries' "out.memory.$k") <(grep '^entries' "out.plain.$k")
done
ratios
for k in 16 18 20; do
    for side in plain memory; do
        echo "stages of $side at size $k, in the last run:"
        grep ' us$' "out.$side.$k"
    done
done
