# Reads PERFORMANCE.md and then README.md. Each figure of README's table of cost has to stand in a row of PERFORMANCE.md with the same jobs
# and bytes, which are the first two cells. A first cell that is empty is that of the row above. A second cell like `64 / 1,500` has two
# lengths, and the other cells then have a figure for each. The table of cost is the one whose first cells are Jobs and Bytes. A figure that
# isn't known yet is `?`: it is told, and the check fails.
BEGIN { FS = " *\\| *" }
FNR == 1 { jobs = ""; in_table = 0 }
!/^\|/ { in_table = 0; next }
{ jobs = $2 != "" ? $2 : jobs; count = split($3, bytes, " / ") }
jobs == "Jobs" && $3 == "Bytes" { in_table = 1; next }
/^\|---/ { next }
FILENAME ~ /PERFORMANCE/ {
    for (i = 4; i < NF; i++) {
        split($i, figures, " / ")
        for (k = 1; k <= count; k++)
            known[jobs, bytes[k], figures[k]] = 1
    }
    next
}
in_table {
    rows++
    open = 0
    for (i = 4; i < NF; i++) {
        if ($i == "?") {
            open++
            continue
        }
        if (split($i, figures, " / ") != count)
            print jobs ": " $i " hasn't " count " figures"
        for (k = 1; k <= count; k++)
            if (!((jobs, bytes[k], figures[k]) in known))
                print jobs ", " bytes[k] " bytes: " figures[k] " isn't in PERFORMANCE.md"
    }
    if (open > 0)
        print jobs ": " open " cells aren't known yet"
}
END {
    if (rows == 0)
        print "README.md has no table of cost"
}
