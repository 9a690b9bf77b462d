# Read by the scripts of the folders beside it that run two programs by turns, which work in a folder of their own.

# took SIDE SIZE PROGRAM WORD ..: runs the program, and notes the processor's time of the program and of the system for it, in
# seconds, and the most memory in KB. What it writes is in out.SIDE.SIZE.
took() {
    local side="$1" k="$2"
    shift 2
    local TIMEFORMAT='%U %S'
    local spent
    spent="$({ time /usr/bin/time -o memory.txt -f %M "$@" > "out.$side.$k"; } 2>&1)"
    echo "$side $k $spent $(tail -1 memory.txt)" >> runs.txt
}

# Of each size and each side but the proved one the least time of both, and the ratio.
ratios() {
    awk '{ side = $1 " " $2; time = $3 + $4
           if (!(side in least) || time < least[side]) { least[side] = time; user[side] = $3; memory[side] = $5 }
           if (!seen[side]++) order[++count] = side }
         END { print "side and size: its seconds (user alone, MB), those of the proved program (the same), ratio"
               for (i = 1; i <= count; i++) { a = order[i]; split(a, part, " "); b = "proved " part[2]
                   if (a != b) printf "%s: %.3f (%.3f, %.0f) %.3f (%.3f, %.0f) %.2f\n", a,
                       least[a], user[a], memory[a] / 1024, least[b], user[b], memory[b] / 1024, least[b] / least[a] } }' runs.txt
}
