# Shares the samples of a run out to the stages of plotting, by the functions' names: `perf script -F ip,sym` gives one line a sample.
# What stands in one function is one line here: the matching of pairs and the making of their entries, and the two parts of relocation.
function stage(name) {
    if (name ~ /first_table|in_order|rand_chacha/) return "f1"
    if (name ~ /Matcher::close|pos_buckets|pos_blake3|pos_lanes|pos_tuple::entry|pos_forward::(waiting|entries)|BitString/) return "matching and fx"
    if (name ~ /sort/) return "sorts"
    if (name ~ /pos_forward/) return "packing and pages"
    if (name ~ /pos_prune|pos_marks/) return "prune"
    if (name ~ /add_sorted|PlotWriter|pos_rice|BitWriter|pos_layout/) return "park code"
    if (name ~ /sha2/) return "SHA-256"
    if (name ~ /pos_plot|pos_relocate|pos_runs/) return "gathering with points, new places"
    if (name ~ /mem(set|move|cpy)/) return "copies"
    if (name ~ /::/) return "other"
    return "system"
}
NF >= 2 { name = $2; for (i = 3; i <= NF; i++) name = name " " $(i); count[stage(name)]++; all++ }
END { for (name in count) printf "%s %d us\n", name, 1000000 * count[name] / hz }
