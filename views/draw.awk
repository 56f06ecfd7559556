# Events to one space-time diagram in SVG: time runs to the right, a column a call; a lane for each client, rescuer and
# slot that occurs.
#   awk -v title=TEXT -f views/names.awk -f views/words.awk -f views/draw.awk EVENTS

BEGIN {
    MOST = 2000                                        # calls
    LEFT = 92; RIGHT = 24; LEAST_WIDTH = 920           # the lanes' left and right margin, the drawing's width
    FIRST_LANE = 88; LANE = 46; SLOT_LANE = 40         # the first lane's height, the space between lanes
    LEGEND_ROWS = 8; LEGEND_ROW = 24                   # rows in half the legend, the space between them
    INK = "#1f2937"; GREY = "#9ca3af"; PALE = "#eceff3"
    CLIENT = "#1d4e89"; RESCUER = "#6d28d9"; WON = "#15803d"; LOST = "#c2410c"; DEAD = "#b00020"
}

is_call() {
    if (calls >= MOST) give_up("draw", "more than " MOST " calls do not make a picture")
    event[++calls] = $0
    take($0)
    note_lanes()
    next
}
!is_closing() { not_an_event("draw") }
$1 == "client" { client_rows++ }

END {
    if (stopped) exit stopped
    if (!calls) give_up("draw", "there are no calls to draw")
    need_closing("draw", client_rows)
    lay_out()
    put_frame()
    put_lines()
    put_calls()
    put_legend()
    print "</svg>"
}

# ---- lanes

# The lane that a call is drawn on; calls that no client can make share one.
function lane_of() {
    if (cut || answer == 12 || answer == 1) return "no client"
    return who()
}

# Keeps which lanes occur.
function note_lanes() {
    occurs[lane_of()] = 1
    if (kind) occurs["slot " op_slot] = 1
    if ((call == 3 || call == 4) && answer == 0) occurs["slot " slot] = 1
}

# Gives a lane that occurs its height.
function place_lane(lane, space) {
    if (!(lane in occurs)) return
    height[lane] = last_lane ? last_lane + space : FIRST_LANE
    last_lane = height[lane]
    order[++lanes] = lane
}

# Heights of all lanes, width of a column and of the drawing.
function lay_out(    c) {
    for (c = 0; c < 8; c++) {
        place_lane("client " c, LANE)
        place_lane("rescuer " c, LANE)
    }
    place_lane("no client", LANE)
    for (c = 0; c < 64; c++) place_lane("slot " c, SLOT_LANE)
    column = int((LEAST_WIDTH - LEFT - RIGHT) / calls)
    if (column < 22) column = 22
    if (column > 38) column = 38
    right_end = LEFT + calls * column
    width = right_end + RIGHT
    if (width < LEAST_WIDTH) width = LEAST_WIDTH
    legend_top = last_lane + 52
}

# Where a call's column has its middle.
function middle(i) {
    return LEFT + (i - 0.5) * column
}

# ---- pieces of SVG

# Text as it may stand in XML.
function escaped(text) {
    gsub(/[\001-\010\013\014\016-\037]/, "", text)
    gsub(/&/, "\\&amp;", text)
    gsub(/</, "\\&lt;", text)
    gsub(/>/, "\\&gt;", text)
    gsub(/"/, "\\&quot;", text)
    return text
}

# A line of text, with its middle, its start or its end at x.
function text_at(x, y, text, anchor, colour, size) {
    return "<text x=\"" x "\" y=\"" y "\" text-anchor=\"" anchor "\" fill=\"" colour "\" font-size=\"" size "\">" \
        escaped(text) "</text>"
}

# A straight line; dashes may be empty.
function line_at(x1, y1, x2, y2, colour, thick, dashes) {
    return "<line x1=\"" x1 "\" y1=\"" y1 "\" x2=\"" x2 "\" y2=\"" y2 "\" stroke=\"" colour \
        "\" stroke-width=\"" thick "\"" (dashes == "" ? "" : " stroke-dasharray=\"" dashes "\"") "/>"
}

# A circle around a middle.
function circle_at(x, y, reach, colours) {
    return "<circle cx=\"" x "\" cy=\"" y "\" r=\"" reach "\" " colours "/>"
}

# A white ring around a middle.
function ring_at(x, y, reach, colour) {
    return circle_at(x, y, reach, colours_of(colour, 0))
}

# A rectangle around a middle.
function box_at(x, y, wide, high, round, colours) {
    return "<rect x=\"" (x - wide / 2) "\" y=\"" (y - high / 2) "\" width=\"" wide "\" height=\"" high \
        "\" rx=\"" round "\" " colours "/>"
}

# A shape with straight sides through the given points.
function shape_at(points, colours) {
    return "<polygon points=\"" points "\" " colours "/>"
}

# Fill and border: full where a shared word was written, else white.
function colours_of(colour, full) {
    return "fill=\"" (full ? colour : "#ffffff") "\" stroke=\"" colour "\" stroke-width=\"1.5\""
}

# The sign inside a mark.
function sign_at(x, y, sign, colour, full) {
    return text_at(x, y + 4, sign, "middle", full ? "#ffffff" : colour, 11)
}

# ---- marks

# A stage of an operation: a circle with its number.
function stage_mark(x, y, sign, colour, full) {
    return circle_at(x, y, 8, colours_of(colour, full)) sign_at(x, y, sign, colour, full)
}

# A step of the rescue: a square with its number.
function step_mark(x, y, sign, full) {
    return box_at(x, y, 16, 16, 0, colours_of(RESCUER, full)) sign_at(x, y, sign, RESCUER, full)
}

# An operation opened: a tag with the first letter of its kind.
function opened_mark(x, y, sign, colour) {
    return shape_at((x - 9) "," (y - 8) " " (x + 4) "," (y - 8) " " (x + 10) "," y " " (x + 4) "," (y + 8) " " (x - 9) \
        "," (y + 8), colours_of(colour, 0)) sign_at(x - 2, y, sign, colour, 0)
}

# A join, or the start of a rescuer: a triangle to the right.
function start_mark(x, y, colour) {
    return shape_at((x - 6) "," (y - 8) " " (x + 8) "," y " " (x - 6) "," (y + 8), colours_of(colour, 1))
}

# A leave, or the end of a rescue: an upright bar.
function end_mark(x, y, colour) {
    return line_at(x, y - 10, x, y + 10, colour, 3, "")
}

# A failure: a cross.
function cross_mark(x, y, reach, colour) {
    return line_at(x - reach, y - reach, x + reach, y + reach, colour, 2.5, "") \
        line_at(x - reach, y + reach, x + reach, y - reach, colour, 2.5, "")
}

# A refused call: a small ring with the answer above it.
function refused_mark(x, y, number) {
    return ring_at(x, y, 4, LOST) above(x, y, number, LOST)
}

# A look up: a soft box with the slot that it shows.
function look_mark(x, y, sign) {
    return box_at(x, y, 20, 16, 6, "fill=\"#fff4c2\" stroke=\"#8a6d00\"") sign_at(x, y, sign, INK, 0)
}

# A short word above a mark; a long one ends at the mark, so that it leaves the next one room.
function above(x, y, text, colour,    is_long) {
    is_long = length(text) > 5
    return text_at(is_long ? x + 6 : x, y - 12, text, is_long ? "end" : "middle", colour, 11)
}

# Small text below a mark.
function below(x, y, text, colour) {
    return text_at(x, y + 20, text, "middle", colour, 11)
}

# A load: a dotted line from the slot's lane up to the mark.
function load_line(x, from, to) {
    return line_at(x, from + 9, x, to - 3, GREY, 1.5, "1.5 3.5") ring_at(x, to, 3, INK)
}

# A won swap: an arrow to the slot's lane.
function swap_arrow(x, from, to) {
    return line_at(x, from + 9, x, to - 15, WON, 2, "") \
        shape_at((x - 5) "," (to - 17) " " (x + 5) "," (to - 17) " " x "," (to - 9), "fill=\"" WON "\"")
}

# A won swap with the slot's count after it.
function won_arrow(x, from, to, count) {
    return swap_arrow(x, from, to) box_at(x, to, 20, 16, 3, colours_of(WON, 0)) sign_at(x, to, count, INK, 0)
}

# A lost swap: a dashed line with a crossed head.
function lost_arrow(x, from, to) {
    return line_at(x, from + 9, x, to - 8, LOST, 2, "6 4") ring_at(x, to, 8, LOST) cross_mark(x, to, 5, LOST)
}

# ---- the lanes' lines

# Draws a lane's line up to x in the look it has had, and gives it another look from there on.
function turn_line(lane, x, look) {
    if (looks[lane] != "") lines = lines looking(looks[lane], since[lane], x, height[lane]) "\n"
    looks[lane] = look
    since[lane] = x
}

# A level line of a look: colour, thickness and dashes.
function looking(look, from, to, y,    part) {
    split(look, part, ",")
    return line_at(from, y, to, y, part[1], part[2], part[3])
}

# Starts or ends the band behind the marks of an open operation.
function turn_band(lane, x, colour) {
    if (banded[lane] != "") bands = bands box_at((begun[lane] + x) / 2, height[lane], x - begun[lane], 24, 6, \
        "fill=\"" banded[lane] "\"") "\n"
    banded[lane] = colour
    begun[lane] = x
}

# The lines of a client and its rescuer where the standing changes.
function follow_standing(x,    mine, rescuers) {
    mine = "client " whose
    rescuers = "rescuer " whose
    if (made[1] == 1) turn_line(mine, x, INK ",2,")
    if (made[1] == 2) turn_line(mine, x, GREY ",1,")
    if (made[1] == 3) turn_line(rescuers, x, RESCUER ",2,")
    if (made[1] == 0 || made[1] == 3) turn_line(mine, x, "")
    if (old[1] == 3) turn_line(rescuers, x, "")
}

# The band of the operation that the call opens or ends.
function follow_operation(x,    lane, reach) {
    lane = lane_of()
    reach = column / 2 - 1 < 13 ? column / 2 - 1 : 13
    if (call >= 3 && call <= 5 && answer == 0) turn_band(lane, x - reach, "#e3edf9")
    if (step == 16 && following == 21) turn_band(lane, x + column - reach, "#efe6fc")
    if (call == 6 && step && following == 0 || step == 26) turn_band(lane, x + reach, "")
    if ((call == 7 || call == 10) && answer == 0) turn_band(lane, x, "")
}

# A slot's line is thick while the slot is held.
function follow_count(x) {
    turn_line("slot " whose, x, slot_look(made[2]))
}

# The look of a slot's line with this count.
function slot_look(count) {
    return count > 0 ? WON ",4," : GREY ",1,2 4"
}

# All lanes: their names, their bands and their lines.
function put_lines(    i, n) {
    for (n = 1; n <= lanes; n++) if (order[n] ~ /^slot/) turn_line(order[n], LEFT, slot_look(0))
    for (i = 1; i <= calls; i++) {
        take(event[i])
        if (store == 5) follow_standing(middle(i))
        if (store == 1) follow_count(middle(i))
        follow_operation(middle(i))
    }
    for (n = 1; n <= lanes; n++) {
        turn_line(order[n], right_end, "")
        turn_band(order[n], right_end, "")
        print line_at(LEFT, height[order[n]], right_end, height[order[n]], PALE, 1, "")
        print text_at(12, height[order[n]] + 4, order[n], "start", INK, 13)
    }
    printf "%s%s", bands, lines
}

# ---- the calls

# What the mark says when the pointer rests on it.
function hover(    text) {
    text = "place " place ": " (cut ? "" : who() ", ") call_words()
    if (step_words() != "") text = text "\n" step_words()
    if (word_written() != "") text = text "\n" word_written()
    return text "\nanswer " answer_words()
}

# Whether the step asked one of the two conditions.
function is_condition() {
    return step == 12 || step == 13
}

# Whether the answer refuses the call, or closes its operation at the load.
function refused() {
    return answer >= 1 && answer <= 13
}

# What lies between the mark of a stage and the lane of its slot.
function stage_line(x, y, stage,    to) {
    to = height["slot " op_slot]
    if (stage == 1) return load_line(x, y, to)
    if (stage == 4) return answer == 101 ? lost_arrow(x, y, to) : won_arrow(x, y, to, made[2])
    return ""
}

# The mark of a stage, a client's or a rescuer's.
function drawn_stage(x, y,    stage, colour) {
    stage = step % 10
    colour = by_rescuer() ? RESCUER : CLIENT
    if (answer == 101) colour = LOST
    return stage_line(x, y, stage) stage_mark(x, y, stage, colour, store) \
        (stage == 6 ? above(x, y, "e" made[1], INK) : "") (refused() ? above(x, y, answer, LOST) : "")
}

# The mark of a step of the rescue.
function drawn_step(x, y,    drawn) {
    drawn = step_mark(x, y, step - 10, store)
    if (is_condition()) drawn = drawn below(x, y, said(), said() == "yes" ? WON : LOST)
    if (step == 13) drawn = drawn above(x, y, "r" row, INK)
    if (step == 15) drawn = drawn above(x, y, "e" made[1], INK)
    if (answer == 100) drawn = drawn end_mark(x + 13, y, RESCUER)
    return drawn
}

# The mark of a call that is no step.
function drawn_call(x, y) {
    if (refused()) return refused_mark(x, y, answer)
    if (call == 1) return start_mark(x, y, CLIENT)
    if (call == 2) return end_mark(x, y, CLIENT)
    if (call <= 5) return opened_mark(x, y, substr("LAR", call - 2, 1), CLIENT)
    if (call == 8) return line_at(x, height["client " client], x, y, RESCUER, 1.5, "") start_mark(x, y, RESCUER)
    if (call == 10) return line_at(x, height["client " client], x, y, GREY, 1, "") cross_mark(x, y, 8, DEAD)
    if (call == 11) return look_mark(x, y, answer == 199 ? "-" : answer - 200)
    return cross_mark(x, y, 8, DEAD)
}

# The i-th call's mark with what it says.
function put_call(i,    x, y) {
    take(event[i])
    x = middle(i)
    y = height[lane_of()]
    print "<g><title>" escaped(hover()) "</title>" \
        box_at(x, y, column, LANE, 0, "fill=\"#ffffff\" fill-opacity=\"0\"") \
        (step == 0 ? drawn_call(x, y) : step > 10 && step < 20 ? drawn_step(x, y) : drawn_stage(x, y)) "</g>"
}

# All marks, in the order of the calls.
function put_calls(    i) {
    for (i = 1; i <= calls; i++) put_call(i)
}

# ---- frame and legend

# The drawing's head: size, white ground, title and the places.
function put_frame(    high, i) {
    high = legend_top + LEGEND_ROWS * LEGEND_ROW
    print "<svg xmlns=\"http://www.w3.org/2000/svg\" width=\"" width "\" height=\"" high "\" viewBox=\"0 0 " \
        width " " high "\" font-family=\"sans-serif\" role=\"img\" aria-label=\"" escaped(title) "\">"
    print "<rect width=\"" width "\" height=\"" high "\" fill=\"#ffffff\"/>"
    print "<g font-weight=\"bold\">" text_at(12, 26, title, "start", INK, 16) "</g>"
    print text_at(12, 52, "place", "start", GREY, 11)
    for (i = 1; i <= calls; i++) {
        take(event[i])
        if (calls < 100 || i % 5 == 0) print text_at(middle(i), 52, place, "middle", GREY, 11)
    }
}

# A sign of the legend, drawn around 0,0, beside its words; rows go down the left half first.
function explain(sign, words,    x, y) {
    x = explained < LEGEND_ROWS ? 12 : 500
    y = legend_top + explained % LEGEND_ROWS * LEGEND_ROW
    explained++
    print "<g transform=\"translate(" (x + 22) "," y ")\">" sign "</g>" text_at(x + 54, y + 4, words, "start", INK, 12)
}

# A sign that lies on its side, so that what runs down a lane fits a row of the legend.
function aside(sign) {
    return "<g transform=\"rotate(-90)\">" sign "</g>"
}

# The legend of what clients and rescuers do.
function explain_marks() {
    explain(stage_mark(-11, 0, 1, CLIENT, 0) stage_mark(11, 0, 6, RESCUER, 1), \
        "stage: 1 load, 2 note, 3 log, 4 swap, 5 cell, 6 era (violet: a rescuer)")
    explain(step_mark(-11, 0, 1, 0) step_mark(11, 0, 4, 1), \
        "rescue: 1 read log, 2 condition 1, 3 condition 2, 4 cell, 5 era, 6 search")
    explain(stage_mark(-11, 0, "", CLIENT, 1) step_mark(11, 0, "", 1), \
        "filled: wrote a shared word (white: wrote none)")
    explain(opened_mark(0, 0, "L", CLIENT), "L lease, A attach, R release opened; the band: while it is open")
    explain(start_mark(-11, 0, CLIENT) start_mark(11, 0, RESCUER), \
        "join; take over, linked to the client taken over")
    explain(end_mark(-11, 0, CLIENT) end_mark(11, 0, RESCUER), "leave; the rescue is finished")
    explain(cross_mark(0, 0, 7, DEAD), "the client or the rescuer fails")
    explain(line_at(-22, 0, 22, 0, GREY, 1, ""), "failed and not taken over")
}

# The legend of what slots show, and of the words beside the marks.
function explain_slots() {
    explain(aside(load_line(0, -31, 18)), "load: the slot's header is read")
    explain(aside(swap_arrow(0, -31, 29)), "swap won; in the box the slot's count after it")
    explain(aside(lost_arrow(0, -31, 15)), "swap lost (101)")
    explain(looking(slot_look(1), -22, 0, 0) looking(slot_look(0), 0, 22, 0), \
        "slot held (thick), slot free (dotted)")
    explain(text_at(0, 4, "r1 yes", "middle", INK, 11), "what a condition said; r1: condition 2 read row 1")
    explain(text_at(0, 4, "e2", "middle", INK, 11), "own era raised to 2")
    explain(look_mark(0, 0, 5), "look up shows slot 5; -: nothing is held")
    explain(ring_at(-6, 0, 4, LOST) text_at(10, 4, 4, "middle", LOST, 11), \
        "refused, or closed at the load: the answer's number")
}

# The legend, below the lanes.
function put_legend() {
    print line_at(12, legend_top - 22, width - 12, legend_top - 22, PALE, 1, "")
    explain_marks()
    explain_slots()
}
