#!/usr/bin/env bash
# Times the archive of crates/pos_c against plain Rust of the same steps, in one process: both judge the proofs that a plot of
# size 18 has for some challenges, by turns, and the least time of each is taken. The first word says how many turns, PROGRAM
# and ARCHIVE may name a program and an archive that are built already.
set -eu
here="$(cd "$(dirname "$0")" && pwd)"
top="$(cd "$here/../.." && pwd)"
work="$(mktemp -d)"
trap 'rm -rf "$work"' EXIT
program="${PROGRAM:-$top/crates/pos_main/out/pos_main}"
archive="${ARCHIVE:-$top/crates/pos_c/out/libpos_c.a}"
[ -x "$program" ] || (cd "$top/crates/pos_main" && rt run) > "$work/log.txt" 2>&1
[ -f "$archive" ] || (cd "$top/crates/pos_c" && rt lib) > "$work/log.txt" 2>&1 || { tail -60 "$work/log.txt"; exit 1; }
cp "$archive" "$work/libpos_c.a"
rustc --edition 2024 -O -C target-cpu=x86-64-v2 -L native="$work" -o "$work/judges" "$here/main.rs"
"$top/.ci/proof_lines" "$program" 18 200 "$work" > "$work/lines"
"$work/judges" "$work/lines" "${1:-50}"
