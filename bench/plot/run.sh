#!/usr/bin/env bash
# Times the whole of `plot` at sizes 16, 18 and 20: the program as crates/pos_main is built, against plain Rust of the same steps
# that holds all in memory, by turns. Both write the same file. What is taken is the time that the processor spent on a run, of
# the program and of the system for it: the least of some runs. The plain side also says what each stage took, in its last run;
# for the proved one the samples of `perf`, where it is there, are shared out to the stages by the functions' names. PROGRAM may name
# a program that is built already.
set -eu
here="$(cd "$(dirname "$0")" && pwd)"
top="$(cd "$here/../.." && pwd)"
turns="${1:-7}"
work="$(mktemp -d)"
trap 'rm -rf "$work"' EXIT
RUSTC_BOOTSTRAP=1 rustc --edition 2024 -O -C target-cpu=x86-64-v2 -o "$work/plain" "$here/main.rs"
id="$(printf '5a%.0s' $(seq 32))"
program="${PROGRAM:-}"
if [ -z "$program" ]; then
    (cd "$top/crates/pos_main" && rt run -- plot "$id" 10 "$work/p.10" "$work/s" > "$work/first.txt" 2> "$work/log.txt") || { tail -60 "$work/log.txt"; exit 1; }
    program="$top/crates/pos_main/out/pos_main"
fi
cd "$work"
. "$top/bench/turns.sh"
for k in 16 18 20; do
    for _ in $(seq "$turns"); do
        rm -f p.plain p.proved
        took plain "$k" ./plain "$id" "$k" p.plain
        took proved "$k" "$program" plot "$id" "$k" p.proved s
        cmp p.plain p.proved
    done
done
ratios
for k in 16 18 20; do
    echo "stages of plain Rust at size $k, in the last run:"
    grep ' us$' "out.plain.$k"
    if command -v perf > /dev/null; then
        rm -f p.proved
        perf record -q -F 2000 -e cpu-clock -o samples "$program" plot "$id" "$k" p.proved s > /dev/null
        echo "stages of the proved program at size $k, by samples:"
        perf script -i samples -F ip,sym 2> /dev/null | awk -v hz=2000 -f "$here/stages.awk"
    fi
done
