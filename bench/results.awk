# Writes bench/RESULTS.md's tables from the two files that bench/run makes: instructions (Q mix what who each count) and times
# (Q mix what who median quartile quartile).
BEGIN { FS = "\t" }
FILENAME ~ /instructions/ { count[$1, $2, $3, $4] = $6 / $5; next }
{
    key = $1 SUBSEP $2 SUBSEP $3 SUBSEP $4
    median[key] = $5; low[key] = $6; high[key] = $7
    if (!(($1, $2) in seen)) { seen[$1, $2] = 1; rows++; q[rows] = $1; mix[rows] = $2 }
    if ($4 ~ /\//) {
        spread = ($7 - $6) / $5
        widest = spread > widest ? spread : widest
        total += spread; ratios++
    }
}
function at(r, what, who) { return q[r] SUBSEP mix[r] SUBSEP what SUBSEP who }
function ns(r, what, who) { return sprintf(median[at(r, what, who)] < 1000 ? "%.1f" : "%.0f", median[at(r, what, who)]) }
function between(r, what, who) { return sprintf("%.2f (%.2f to %.2f)", median[at(r, what, who)], low[at(r, what, who)], high[at(r, what, who)]) }
# Instructions of a run net of the check: a run of no commands is the check alone.
function net(r, who) { return count[at(r, "run", who)] - count[at(r, "empty run", who)] / RUN }
# The mean and the largest of the rows from a Q on, and how many are over the target.
function rated(what, who, target, from,    r, most, place, over, sum, n) {
    for (r = 1; r <= rows; r++) {
        if (q[r] + 0 < from) { continue }
        n++
        sum += median[at(r, what, who)]
        over += median[at(r, what, who)] > target
        if (median[at(r, what, who)] > most) { most = median[at(r, what, who)]; place = "Q = " q[r] ", " mix[r] }
    }
    return sprintf("mean %.2f, largest %.2f (%s), %d of %d rows over %.2f", sum / n, most, place, over, n, target)
}
function pair(what,    r) {
    print "| Q | mix | archive ns | C ns | archive / C | archive instructions | C instructions | archive / C |"
    print "|---|---|---|---|---|---|---|---|"
    for (r = 1; r <= rows; r++) {
        printf "| %s | %s | %s | %s | %s | %.0f | %.0f | %.2f |\n", q[r], mix[r], ns(r, what, "archive"), ns(r, what, "C"), between(r, what, "archive/C"),
            count[at(r, what, "archive")], count[at(r, what, "C")], count[at(r, what, "archive")] / count[at(r, what, "C")]
    }
    print ""
}

END {
    print "## Targets\n"
    print "| target | measured |"
    print "|---|---|"
    print "| a run, net of its check, at most 1.10 times the C program everywhere, 1.05 on average | " rated("run", "archive/C", 1.1, 0) " |"
    print "| the same beside the C program with the 32-bit remainder | " rated("run", "archive/narrow", 1.1, 0) " |"
    print "| a run faster than HL-HITTERS on Boost | " rated("run", "archive/Boost", 1, 0) " |"
    print "| the check at most 1.05 times the C program's from Q = 64 on | " rated("check", "archive/C", 1.05, 64) " |"
    print "| the same beside the C program with the 32-bit remainder | " rated("check", "archive/narrow", 1.05, 64) " |"
    print ""
    print "## Run: one command\n"
    print "One command of a run, net of the check that the run makes first.\n"
    print "| Q | mix | archive ns | C ns | C32 ns | Boost ns | direct ns | archive / C | archive / C32 | archive / Boost |"
    print "|---|---|---|---|---|---|---|---|---|---|"
    for (r = 1; r <= rows; r++) {
        printf "| %s | %s | %s | %s | %s | %s | %s | %s | %s | %s |\n", q[r], mix[r], ns(r, "run", "archive"), ns(r, "run", "C"), ns(r, "run", "narrow"), ns(r, "run", "Boost"), ns(r, "run", "direct"),
            between(r, "run", "archive/C"), between(r, "run", "archive/narrow"), between(r, "run", "archive/Boost")
    }
    print "\nInstructions for the same:\n"
    print "| Q | mix | archive | C | C32 | Boost | direct | archive / C | archive / C32 | archive / Boost |"
    print "|---|---|---|---|---|---|---|---|---|---|"
    for (r = 1; r <= rows; r++) {
        boost = count[at(r, "run", "Boost")]
        printf "| %s | %s | %.0f | %.0f | %.0f | %.0f | %.0f | %.2f | %.2f | %.2f |\n", q[r], mix[r], net(r, "archive"), net(r, "C"), net(r, "narrow"), boost, count[at(r, "run", "direct")],
            net(r, "archive") / net(r, "C"), net(r, "archive") / net(r, "narrow"), net(r, "archive") / boost
    }
    print "\n## Check\n"
    print "One count of an absent client, over a dozen tables in turn: the check of the whole table, and a lookup that finds nobody.\n"
    pair("check")
    print "## Single calls\n"
    print "One arrive, slide or serve of the mix, each with its check.\n"
    pair("single")
    print "## Noise\n"
    printf "Each ratio is the median of %d, one from each repetition, in which the programs follow each other on the same commands; quartiles in brackets. ", REPEATS
    printf "Between the quartiles lie %.0f %% of a ratio on average, and %.0f %% at the most. ", 100 * total / ratios, 100 * widest
    print "Instruction counts repeat to the last one."
}
