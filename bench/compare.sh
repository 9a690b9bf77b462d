# Read by the scripts of the folders beside it, which set `here` to their folder and `work` to one with the crates to time.

# The least of each figure in a file of runs, in picoseconds.
least() {
    awk '/ ps a /{ for (i = 2; i < NF; i++) if ($(i) == "ps") { name = $1; if (!(name in best) || $(i - 1) < best[name]) best[name] = $(i - 1) } } END { for (name in best) print name, best[name], "ps" }' "$1" | sort
}

# Runs plain Rust and the proved crate of this name so many times by turns, and prints the least of each figure.
compare() {
    local crate="$1" times="$2"
    rustc --edition 2024 -O -C target-cpu=x86-64-v2 -o "$work/plain" "$here/main.rs"
    (cd "$work/crates/$crate" && rt run > "$work/first.txt" 2> "$work/log.txt") || { tail -60 "$work/log.txt"; exit 1; }
    for _ in $(seq "$times"); do
        "$work/plain" >> "$work/plain.txt"
        "$work/crates/$crate/out/$crate" >> "$work/proved.txt"
    done
    echo "plain Rust, least of $times runs:"; least "$work/plain.txt"
    echo "proved, least of $times runs:"; least "$work/proved.txt"
}
