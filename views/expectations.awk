# What the player printed, then LINE PLACE ANSWER for each expectation: prints the first that does not hold, with
# status 1, under the name that the environment gives in `shown`.
$1 == "slot" { next }
NF == 2 { answered[$1] = $2; next }
NF == 3 && !($2 in answered) { tell("had no answer") }
NF == 3 && answered[$2] != $3 { tell("answered " answered[$2]) }

# Tells how the expectation at hand was missed, and ends.
function tell(how) {
    print "medvulya: " ENVIRON["shown"] ", line " $1 ": call " $2 " was expected to answer " $3 " and " how
    exit 1
}
