# Events to what a person reads in a terminal: a line a call, then the slots and the clients.
#   awk -f views/names.awk -f views/words.awk -f views/watch.awk EVENTS

# What stands in a column, or a sign that there is nothing.
function or_dash(text) {
    return text == "" ? "-" : text
}

# One row of the calls' table.
function put_call(at, by, what, did, wrote, answered) {
    printf "%5s  %-10s  %-23s  %-23s  %-59s  %s\n", at, or_dash(by), what, or_dash(did), or_dash(wrote), answered
}

is_call() {
    if (!calls++) put_call("place", "who", "call", "stage or step", "word written: old -> present", "answer")
    take($0)
    named[client] = 1
    put_call(place, who(), call_words(), step_words(), word_written(), answer_words())
    next
}
!is_closing() { not_an_event("watch") }
$1 == "slot" { slots[++slot_rows] = $0 }
$1 == "line" { lines[$4] = lines[$4] "client " $2 " cell " $3 ": " PHASES[$5 + 1] "\n" }
$1 == "client" { clients[++client_rows] = $0 }
$1 == "cell" { entries[$2] = entries[$2] "cell " $3 ": slot " $4 "\n" }

# The rows of a list below each other, behind the columns of the first row.
function put_list(first, list,    item, items, i) {
    items = split(list, item, "\n")
    if (list == "") sub(/ +$/, "", first)
    print first item[1]
    for (i = 2; i < items; i++) printf "%" length(first) "s%s\n", "", item[i]
}

# Each slot's count beside the ledger's lines that name it.
function put_slots(    i, part, differs) {
    printf "\n%5s  %5s  %5s  %7s  %s\n", "slot", "count", "lines", "", "lines of the ledger that name it"
    for (i = 1; i <= slot_rows; i++) {
        split(slots[i], part, " ")
        differs = part[4] == part[6] ? "" : "DIFFERS"
        put_list(sprintf("%5s  %5s  %5s  %-7s  ", part[2], part[4], part[6], differs), lines[part[2]])
    }
}

# The operation or the rescue that is open.
function open_words(code, of_kind, of_cell, of_slot) {
    if (code == 0) return "none"
    if (code < 10) return operation_words(of_kind, of_cell, of_slot) ", next " stage_name(code)
    if (code > 20) return "rescue: " operation_words(of_kind, of_cell, of_slot) ", next " stage_name(code - 20)
    return "rescue" (of_kind ? " of " operation_words(of_kind, of_cell, of_slot) : "") ", next " step_name(code)
}

# Each client that a call has named, or that is not absent.
function put_clients(    i, part, open) {
    printf "\n%6s  %-9s  %10s  %-50s  %s\n", "client", "standing", "own era", "open operation", "entries"
    for (i = 1; i <= client_rows; i++) {
        split(clients[i], part, " ")
        if (part[3] == 0 && !(part[2] in named) && !(part[2] in entries)) continue
        open = open_words(part[5], part[6] + 0, part[7], part[8])
        put_list(sprintf("%6s  %-9s  %10s  %-50s  ", part[2], STANDINGS[part[3] + 0], part[4], open), entries[part[2]])
    }
}

END {
    if (stopped) exit stopped
    if (!calls) exit 0
    need_closing("watch", client_rows)
    put_slots()
    put_clients()
}
