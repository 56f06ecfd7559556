# The rules' words for the events that `tester watch` writes. Comes after names.awk, ahead of watch.awk or draw.awk.

BEGIN {
    split("lease,attach,release", KINDS, ",")
    split("load,note,log,swap,cell,era", STAGES, ",")
    split("running,failed,in rescue", STANDINGS, ",")
    STANDINGS[0] = "absent"
    split("swapped,written,its release is open", PHASES, ",")
    name_answers()
}

# The meanings that do not depend on the call.
function name_answers() {
    MEANINGS[0] = "accepted"
    MEANINGS[1] = "no such client"
    MEANINGS[2] = "no such cell"
    MEANINGS[3] = "no such slot"
    MEANINGS[4] = "wrong standing"
    MEANINGS[7] = "the slot is held"
    MEANINGS[8] = "the slot is free"
    MEANINGS[9] = "own era at the era stop"
    MEANINGS[10] = "a cell holds a slot"
    MEANINGS[11] = "beyond its limits"
    MEANINGS[12] = "no such call"
    MEANINGS[13] = "record cut short"
    MEANINGS[101] = "swap lost, load is next"
    MEANINGS[199] = "nothing is held"
}

# Takes a `call` or `cut` line apart; a cut record has a place and an answer, and did nothing.
function take(line,    part, i) {
    split(line, part, " ")
    place = part[2]
    cut = part[1] == "cut"
    call = part[3] + 0; client = part[4] + 0; cell = part[5] + 0; slot = part[6] + 0
    answer = part[7] + 0
    step = part[8] + 0; following = part[9] + 0; row = part[10] + 0
    kind = part[11] + 0; op_cell = part[12] + 0; op_slot = part[13] + 0
    store = part[14] + 0; whose = part[15] + 0; which = part[16] + 0
    for (i = 1; i <= 5; i++) {
        old[i] = part[16 + i]
        made[i] = part[21 + i]
    }
    if (cut) {
        answer = part[3] + 0
        call = 0
    }
}

# Whether the line read is a call, or a record cut short.
function is_call() {
    return $1 == "call" && NF == 26 || $1 == "cut" && NF == 3
}

# Whether the line read is one of the closing lines, about slots, ledger, clients or cells.
function is_closing() {
    return $1 == "slot" && NF == 6 || $1 == "line" && NF == 5 || $1 == "client" && NF == 8 || $1 == "cell" && NF >= 4
}

# Says on standard error why a view ends early, and ends it.
function give_up(view, why) {
    print view ": " why | "cat >&2"
    stopped = 2
    exit stopped
}

# Ends a view at a line that is none of the events.
function not_an_event(view) {
    give_up(view, "line " NR " is not an event: " $0)
}

# Ends a view of events whose closing lines, a client's among them, are missing.
function need_closing(view, clients_told) {
    if (!clients_told) give_up(view, "the events stop before their closing lines")
}

# Whether the call is one that a rescuer makes.
function by_rescuer() {
    return call >= 8 && call <= 10
}

# Who makes the call.
function who() {
    if (cut) return ""
    return (by_rescuer() ? "rescuer " : "client ") client
}

# The call with the numbers it uses; a step with the operation that it is part of.
function call_words() {
    if (cut) return "cut short"
    if (!(call in call_name)) return "call " call
    if (call == 3 || call == 4) return call_name[call] " cell " cell " slot " slot
    if (call == 5 || call == 11) return call_name[call] " cell " cell
    if (call == 6 && kind) return "step of " KINDS[kind] " slot " op_slot
    if (call == 9 && kind) return "rescue step, slot " op_slot
    return call_name[call]
}

# A stage of an operation by its number and name.
function stage_name(stage) {
    return stage " " STAGES[stage]
}

# A stage or step that stands next, by its code in the events.
function step_name(code) {
    if (code > 20) return "release " stage_name(code - 20)
    if (code < 10) return stage_name(code)
    if (code == 11) return "read log"
    if (code == 12) return "condition 1"
    if (code == 13) return "condition 2"
    if (code == 16) return "search"
    return STAGES[code - 9]
}

# Whether the step was a swap.
function is_swap() {
    return step == 4 || step == 24
}

# What a condition said: the cell comes next on a yes.
function said() {
    return following == 14 ? "yes" : "no"
}

# What the search found.
function found() {
    if (following == 0) return "nothing"
    return kind ? "cell " op_cell : "a slot"
}

# The stage or step that the call performed and how it went.
function step_words() {
    if (!step) return ""
    if (is_swap()) return step_name(step) (answer == 101 ? ", lost" : ", won")
    if (step == 13) return "condition 2, row " row ": " said()
    if (step == 12) return "condition 1: " said()
    if (step == 16) return "search: " found()
    if (step == 11 && following == 16) return "read log: none"
    return step_name(step)
}

# A header, unpacked.
function header_words(word) {
    return "era " word[1] " count " word[2] " client " word[3]
}

# What a cell holds.
function cell_words(held) {
    return held == 255 ? "empty" : "slot " held
}

# An operation with its cell and slot.
function operation_words(of_kind, of_cell, of_slot) {
    return KINDS[of_kind] " cell " of_cell " slot " of_slot
}

# A log entry.
function log_words(word) {
    if (word[1] == 0) return "none"
    return operation_words(word[1] + 0, word[3], word[4]) ", era " word[2] ", count " word[5]
}

# The name of a matrix entry: an own era, or the era of one client that another has seen.
function entry_name(by, of) {
    return by == of ? "own era" : "seen of " of " by " by
}

# The one word that the call wrote, with its old and its present value.
function word_written() {
    if (store == 1) return "header " whose ": " header_words(old) " -> " header_words(made)
    if (store == 2) return "cell " which ": " cell_words(old[1]) " -> " cell_words(made[1])
    if (store == 3) return "log: " log_words(old) " -> " log_words(made)
    if (store == 4) return entry_name(whose, which) ": " old[1] " -> " made[1]
    if (store == 5) return "standing: " STANDINGS[old[1] + 0] " -> " STANDINGS[made[1] + 0]
    return ""
}

# The answer's meaning.
function meaning() {
    if (answer >= 200) return "shows slot " (answer - 200)
    if (answer == 5) return call == 6 ? "nothing is under way" : "something is under way"
    if (answer == 6) return call == 5 ? "the cell is empty" : "the cell is full"
    if (answer == 100) return call == 9 ? "rescue finished" : "operation finished"
    return MEANINGS[answer]
}

# The answer with its meaning.
function answer_words() {
    return answer " " meaning()
}
