# Reads the table of docs/CHECKING.md, in whose rows each crate has four cells, `NAME` | PROOF | TESTS | EDITS, and then crates.txt.

FNR == NR {
    cells = split($0, cell, "|")
    for (at = 2; at + 3 < cells; at += 4) if (match(cell[at], /`[a-z_]+`/)) {
        crate = substr(cell[at], RSTART + 1, RLENGTH - 2)
        minutes[crate] = cell[at + 1] + cell[at + 2] + cell[at + 3]
    }
    next
}
{
    sub(/#.*/, "")
    if (NF == 0) next
    libraries = index($0, ":") ? substr($0, index($0, ":") + 1) : ""
    sub(/:.*/, "")
    uses[$1] = libraries
}

# How many crates stand below this one, one on the other.
function depth(crate,    count, used, at, below) {
    if (crate in depths) return depths[crate]
    count = split(uses[crate], used, " ")
    for (at = 1; at <= count; at++) if (used[at] in uses && depth(used[at]) + 1 > below) below = depth(used[at]) + 1
    return depths[crate] = below + 0
}

function stands_on(crate,    count, used, at) {
    if (crate in known) return known[crate]
    known[crate] = 0
    count = split(uses[crate], used, " ")
    for (at = 1; at <= count; at++) if (used[at] == name || (used[at] in uses && stands_on(used[at]))) known[crate] = 1
    return known[crate]
}

END {
    if (!(name in uses)) {
        print "crates.txt has no crate " name > "/dev/stderr"
        exit 2
    }
    for (crate in uses) if (depth(crate) > deepest) deepest = depth(crate)
    for (step = 0; step <= deepest; step++)
        for (crate in uses) if (depth(crate) == step && stands_on(crate)) {
            printf "%-18s %5.1f\n", crate, minutes[crate]
            crates++
            sum += minutes[crate]
        }
    printf "%d crates stand on %s: %.0f minutes of processor time\n", crates, name, sum
}
