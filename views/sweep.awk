# The numbers of a sweep to the table that a tester puts into a report; the first run that differs in each way as a
# trace in the file TRACES-WAY. Ends with 0 where every run agrees with the ledger, 1 where one does not, 2 where there
# was nothing to sweep. Comes after words.awk.
#   awk -v about=TEXT -v traces=TRACES -f views/names.awk -f views/words.awk -f views/sweep.awk NUMBERS
BEGIN {
    split("count,look-up,rescue-end", WAYS, ",")
    split("a count is not its number of lines,a look up shows what the ledger has not,the rescue's end is not the one that was due", WORDS, ",")
}

# Which deaths a section places after the victim's.
function deaths(kills) {
    if (kills == 0) return "the victim"
    return kills == 1 ? "the victim, a rescuer" : "the victim, a rescuer, its successor"
}

# How a section places the other host's operation.
function placed(parts) {
    if (parts == 0) return "-"
    if (parts == 1) return "as a whole, anywhere"
    return parts < 100 ? "in up to " parts " parts, anywhere" : "in every interleaving"
}

# A count of steps, or the two ends of it.
function span(from, to) {
    return from == to ? from : from " to " to
}

# What became of the victim's operation: after its era it was over before the rescue began.
function completed(steps, by_rescue) {
    if (by_rescue) return "yes"
    return steps == 6 ? "was over" : "no"
}

# After which step the victim died.
function died_after(steps) {
    return steps == 0 ? "0 (opened)" : steps " (" STAGES[steps] ")"
}

# Adds what a section says of one ending to what the others said of it.
function add_ending(key, runs, least, most) {
    if (!(key in runs_of)) {
        ending[++endings] = key
        least_of[key] = least
    }
    runs_of[key] += runs
    if (least < least_of[key]) least_of[key] = least
    if (most > most_of[key]) most_of[key] = most
}

$1 == "refused" { refused = $2; answer = $3 }
$1 == "section" {
    section[++sections] = sprintf("%-38s  %-28s  %10s  %12s  %9s", deaths($2), placed($3), $4, $5, $6)
    total += $4
    differing += $6
    if ($7) too_long = 1
}
$1 == "ending" { add_ending($2 " " $3 " " $4 " " $5, $6, $7, $8) }
$1 == "differs" { way = $2 in first ? 0 : $2; first[$2] = 1 }
$1 == "record" && way { print > (traces "-" WAYS[way] ".records") }

# The endings, by the victim's last step.
function put_endings(    step, i, part) {
    printf "\n%-18s  %-10s  %5s  %8s  %10s  %s\n", "killed after step", "completed", "count", "own era", "runs", "rescue steps"
    for (step = 0; step <= 15; step++)
        for (i = 1; i <= endings; i++) {
            split(ending[i], part, " ")
            if (part[1] != step) continue
            printf "%-18s  %-10s  %5s  %8s  %10s  %s\n", died_after(step), completed(step, part[2]), part[3], part[4],
                runs_of[ending[i]], span(least_of[ending[i]], most_of[ending[i]])
        }
}

# The verdict, and where the runs that differ can be replayed.
function put_verdict(    i) {
    if (!differing) {
        print "\nall " total " runs agree with the ledger"
        return
    }
    print "\n" differing " of " total " runs do not agree with the ledger; the first of each way:"
    for (i = 1; i <= 3; i++) if (i in first) print "  " WORDS[i] ": " traces "-" WAYS[i] ".scenario"
}

END {
    if (refused) {
        print "medvulya: after the set-up the " (refused == 1 ? "victim" : "other host") "'s opening is answered " answer ", so there is nothing to sweep" | "cat >&2"
        exit 2
    }
    if (!sections) exit 2
    if (about != "") print about "\n"
    printf "%-38s  %-28s  %10s  %12s  %9s\n", "killed", "the other host's operation", "runs", "calls", "differing"
    for (i = 1; i <= sections; i++) print section[i]
    put_endings()
    if (too_long) print "\nsome runs make more choices than are gone through: not every placement was played"
    put_verdict()
    exit (differing || too_long) ? 1 : 0
}
