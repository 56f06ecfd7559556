# Bytes as decimal numbers (`od -An -v -tu1`) in; out, scenario text that assembles to the same bytes. Comes after
# names.awk.
{
    for (i = 1; i <= NF; i++) {
        byte[++held] = $i + 0
        if (held == 4) whole_record()
    }
}

END {
    print_kept()
    if (held) print "cut " joined(held)
}

# A record is kept until it is known how often it is repeated; only steps are.
function whole_record(    text) {
    text = in_words()
    if (text == kept && text ~ / step$/ && times < most_times) times++
    else {
        print_kept()
        kept = text
        times = 1
    }
    held = 0
}

# The record at hand as a call, or as its bytes where a call in words would not give the same ones.
function in_words(    behind, text) {
    if (byte[1] < 1 || byte[1] > known_calls) return "record " joined(4)
    behind = takes[byte[1]]
    if (byte[3] && behind !~ /cell/ || byte[4] && behind !~ /slot/) return "record " joined(4)
    text = byte[2] " " call_name[byte[1]]
    if (behind ~ /cell/) text = text " " byte[3]
    if (behind ~ /slot/) text = text " " byte[4]
    return text
}

# The first bytes at hand, a space between each two.
function joined(count,    i, text) {
    for (i = 1; i <= count; i++) text = text (i > 1 ? " " : "") byte[i]
    return text
}

# The record that was kept, with its repeats.
function print_kept() {
    if (times) print kept (times > 1 ? " " times : "")
}
