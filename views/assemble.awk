# Scenario text (docs/SCENARIOS.md) in; out, by -v what=WHAT:
#   records   the records in hex, one a line; this where nothing is asked
#   given     the own eras that the block is given with, 00000001 where nothing is said of them, then the records
#   expects   LINE PLACE ANSWER for each call that is expected to answer so
#   sweep     the victim's opening record, the other's (00000000 where there is none), then those of the set-up
# The first mistake is told on standard error, under the name that the environment gives in `shown`; nothing else is
# printed then, and the status is 2. Comes after names.awk.
BEGIN {
    CONVFMT = "%.0f"
    if (what == "") what = "records"
}

{
    sub(/#.*/, "")
    sub(/^[ \t]+/, "")
    sub(/[ \t\r]+$/, "")
    words = split($0, word, /[ \t]+/)
    at = 1
    line = NR
    if (words) statement()
}

END {
    if (refused) exit 2
    line = NR + 1
    if (what == "given") print_eras()
    if (what == "sweep") print_swept()
    if (what == "expects") print_expects()
    else print_records()
}

# One line that is not blank, by its first word.
function statement() {
    if (word[1] == "own") own_eras()
    else if (word[1] == "expect") expectation()
    else if (word[1] == "victim" || word[1] == "other") swept(word[at++])
    else plain_call()
    if (at <= words) mistake("the end of the line")
}

# The own eras of a given block, ahead of its calls.
function own_eras() {
    if (what == "records" || what == "sweep") refuse("expected a call: 'own eras' is for ./medvulya watch and draw")
    if (made || given_eras != "") refuse("expected one 'own eras', above every call")
    at++
    if (word[at] != "eras") mistake("eras")
    at++
    given_eras = number_at("an era", 0, 4294967295)
}

# A line that makes records.
function plain_call() {
    if (is_cut) mistake("no call after 'cut'")
    if ("victim" in opening) mistake("every call of the set-up above 'victim'")
    if (word[1] == "record") whole_record()
    else if (word[1] == "cut") cut_record()
    else if (word[1] ~ /^[0-9]+$/) client_call()
    else mistake("a client number from 0 to 255 or one of own, record, cut, expect, victim, other")
}

# CLIENT and a call in words.
function client_call(    client, call, record, times) {
    client = byte_at("a client number")
    call = place_in(call_names, "", "")
    record = record_of(call, client)
    times = 1
    if (takes[call] == "times" && at <= words) times = number_at("a number of times", 1, most_times)
    add_record(record, times)
}

# The record of a client's call, with the numbers that the call takes.
function record_of(call, client,    cell, slot) {
    cell = takes[call] ~ /cell/ ? byte_at("a cell number") : 0
    slot = takes[call] ~ /slot/ ? byte_at("a slot number") : 0
    return sprintf("%02X%02X%02X%02X", call, client, cell, slot)
}

# Four bytes as they are.
function whole_record(    record) {
    at++
    record = sprintf("%02X", byte_at("a call number"))
    record = record sprintf("%02X", byte_at("a client number"))
    record = record sprintf("%02X", byte_at("a cell number"))
    add_record(record sprintf("%02X", byte_at("a slot number")), 1)
}

# One to three bytes of a record that the file ends in.
function cut_record(    record) {
    at++
    do record = record sprintf("%02X", byte_at("a byte"))
    while (at <= words && at <= 4)
    add_record(record, 1)
    is_cut = 1
}

# What the call above must answer: its last time, or with `each` every time.
function expectation(    place, answer) {
    if (what == "sweep") refuse("expected a call, 'victim' or 'other': 'expect' is for ./medvulya play")
    if (!made) refuse("expected a call above the first 'expect', found none")
    if (is_told) refuse("expected one 'expect' for a call, found a second")
    at++
    place = last_place
    if (word[at] == "each") {
        place = first_place
        at++
    }
    answer = wanted_answer()
    for (; place <= last_place; place++) expects[++expected] = line " " place " " answer
    is_told = 1
}

# An answer by its number or its name.
function wanted_answer(    answer) {
    if (word[at] !~ /^[0-9]+$/) {
        answer = answer_number[place_in(answer_names, "", "a number of the rules or ")]
        return answer == 200 ? 200 + number_at("a slot number", 0, 63) : answer
    }
    answer = word[at] + 0
    if (!(answer in is_answer) && (answer < 200 || answer > 263))
        mistake("an answer of the rules: 0 to 13, 100, 101, 199, or 200 to 263")
    at++
    return answer
}

# The operation of the victim or of the other.
function swept(who,    client) {
    if (what != "sweep") refuse("expected a call or 'expect': '" who "' is for ./medvulya sweep")
    if (is_cut) refuse("expected nothing after 'cut', found '" who "'")
    if (who in opening) refuse("expected one '" who "', found a second")
    if (who == "other" && !("victim" in opening)) refuse("expected 'victim' above 'other', found none")
    client = byte_at("a client number")
    if (who == "victim") victim_client = client
    else if (client == victim_client) refuse("expected another client than the victim's, found '" client "'")
    opening[who] = record_of(2 + place_in("lease,attach,release", "", ""), client)
}

# The place in `list` of the name that goes on with the word at hand, where `begun` is what has been read of it.
function place_in(list, begun, lead,    names, count, i, rest, choices, several, longer) {
    count = split(list, names, ",")
    for (i = 1; i <= count; i++) {
        if (substr(names[i], 1, length(begun)) != begun) continue
        rest = substr(names[i], length(begun) + 1)
        if (rest == word[at]) {
            at++
            return i
        }
        if (index(rest, word[at] " ") == 1) longer = 1
        if (choices != "") several = "one of "
        choices = choices (choices == "" ? "" : ", ") rest
    }
    if (!longer) mistake(lead several choices)
    begun = begun word[at++] " "
    return place_in(list, begun, "")
}

# The number at hand, which is a byte.
function byte_at(name) {
    return number_at(name, 0, 255)
}

# The number at hand, from `least` to `most`.
function number_at(name, least, most) {
    if (word[at] !~ /^[0-9]+$/ || word[at] + 0 < least || word[at] + 0 > most) mistake(name " from " least " to " most)
    return word[at++] + 0
}

# Keeps a record that is made `times` times over.
function add_record(record, times) {
    records[++made] = record
    repeats[made] = times
    first_place = last_place + 1
    last_place += times
    is_told = 0
}

# Refuses the word at hand.
function mistake(wanted) {
    refuse("expected " wanted ", found " (at <= words ? "'" word[at] "'" : "the end of the line"))
}

# Tells what is wrong in this line, and ends.
function refuse(text) {
    print "medvulya: " ENVIRON["shown"] ", line " line ": " text | "cat >&2"
    close("cat >&2")
    refused = 1
    exit 2
}

# The own eras of the given block; by halves, since not every awk prints 32 bits in hex.
function print_eras() {
    if (given_eras == "") given_eras = 1
    printf "%04X%04X\n", int(given_eras / 65536), given_eras % 65536
}

# The two opening records of a sweep.
function print_swept() {
    if (!("victim" in opening)) refuse("expected 'victim' for ./medvulya sweep, found the end of the file")
    print opening["victim"]
    print (("other" in opening) ? opening["other"] : "00000000")
}

# The expectations in their order.
function print_expects(    i) {
    for (i = 1; i <= expected; i++) print expects[i]
}

# The records in their order.
function print_records(    i, time) {
    for (i = 1; i <= made; i++)
        for (time = 1; time <= repeats[i]; time++) print records[i]
}
