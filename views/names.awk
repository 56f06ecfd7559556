# The words of the rules: each call with the numbers that stand behind it, each answer with its name.
BEGIN {
    add_call("join", "")
    add_call("leave", "")
    add_call("lease", "cell slot")
    add_call("attach", "cell slot")
    add_call("release", "cell")
    add_call("step", "times")
    add_call("fail", "")
    add_call("take over", "")
    add_call("rescue step", "times")
    add_call("rescuer fails", "")
    add_call("look up", "cell")

    add_answer(0, "accepted")
    add_answer(1, "no client")
    add_answer(2, "no cell")
    add_answer(3, "no slot")
    add_answer(4, "wrong standing")
    add_answer(5, "wrong moment")
    add_answer(6, "wrong cell")
    add_answer(7, "slot held")
    add_answer(8, "slot free")
    add_answer(9, "era stop")
    add_answer(10, "still holding")
    add_answer(11, "beyond limits")
    add_answer(12, "no such call")
    add_answer(13, "cut record")
    add_answer(100, "finished")
    add_answer(101, "swap lost")
    add_answer(199, "nothing")
    add_answer(200, "shows")
    most_times = 10000
}

# The next call in the order of the rules' numbers, which begin at 1.
function add_call(name, behind) {
    call_names = call_names (known_calls ? "," : "") name
    call_name[++known_calls] = name
    takes[known_calls] = behind
}

# An answer and its number; `shows` is 200 and the slot is added to it.
function add_answer(number, name) {
    answer_names = answer_names (known_answers ? "," : "") name
    answer_number[++known_answers] = number
    is_answer[number] = 1
}
