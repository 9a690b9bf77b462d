#!/usr/bin/env bash
# Times `farm` over a list of 256 plots of size 18 in layout 2: the program as crates/pos_main is built, against plain Rust of the same steps
# (bench/harvest/main.rs), by turns. Both write the same text. What is taken is the time that the processor spent on a run, of the program and
# of the system for it: the least of some runs. PROGRAM may name a program that is built already.
set -eu
here="$(cd "$(dirname "$0")" && pwd)"
top="$(cd "$here/../.." && pwd)"
turns="${1:-7}"
work="$(mktemp -d)"
trap 'rm -rf "$work"' EXIT
rustc --edition 2024 -O -C target-cpu=x86-64-v2 -o "$work/plain" "$here/../harvest/main.rs"
program="${PROGRAM:-$top/crates/pos_main/out/pos_main}"
cd "$work"
./plain make
for i in $(seq 0 255); do cp two "p.$i" && echo "p.$i"; done > names
. "$top/bench/turns.sh"
# Challenges with no, five, one and two proofs a plot.
for number in 0 1 4 5; do
    challenge="$(./plain challenge "$number")"
    cmp <(./plain farm names "$number") <("$program" farm names "$challenge")
    echo "challenge $number: $(./plain farm names "$number" | sed -n 1p)"
    for _ in $(seq "$turns"); do
        took plain "$number" ./plain farm names "$number"
        took proved "$number" "$program" farm names "$challenge"
    done
done
ratios
