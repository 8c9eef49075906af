# Tables of `beside`, one after another, as one table of medians. A table's head says which side was opened first.
/^\|-/ { next }
/ns/ { swapped = $3 ~ /after/; next }
NF > 5 {
    if (!($2 in count)) names[++rows] = $2
    ratio[$2, ++count[$2]] = swapped ? $3 / $4 : $4 / $3
    split($6, differ, " of ")
    bits[$2] += differ[1]
}
END {
    print "| after / before | median | smallest | largest | numbers that differ |"
    print "|---|---|---|---|---|"
    for (r = 1; r <= rows; r++) {
        n = sort(names[r])
        median = n % 2 ? sorted[(n + 1) / 2] : (sorted[n / 2] + sorted[n / 2 + 1]) / 2
        printf "|%s| %.3f | %.3f | %.3f | %d |\n", names[r], median, sorted[1], sorted[n], bits[names[r]]
    }
}
function sort(name, i, j, t) {
    for (i = 1; i <= count[name]; i++) {
        for (j = i; j > 1 && sorted[j - 1] > ratio[name, i]; j--) sorted[j] = sorted[j - 1]
        sorted[j] = ratio[name, i]
    }
    return count[name]
}
