//! The situations of the document that start from a fresh block, by letter.

use super::*;
use crate::play::play;
use crate::words::Era;

/// The joined clients in a fresh block.
fn joined(clients: &[u8]) -> Machine {
    let mut machine = Machine::fresh();
    for &client in clients {
        expect(&mut machine, [1, client, 0, 0], &[0]);
    }
    machine
}

/// Makes the same call once for each expected number.
fn expect(machine: &mut Machine, record: [u8; 4], numbers: &[u16]) {
    for (time, &number) in numbers.iter().enumerate() {
        let answer = machine.answer(record);
        assert_eq!(answer.number(), number, "{record:?}, time {time}");
    }
}

/// Opens an operation and takes all six of its steps, with no swap lost.
fn complete(machine: &mut Machine, opening: [u8; 4]) {
    expect(machine, opening, &[0]);
    expect(machine, [6, opening[1], 0, 0], &[0, 0, 0, 0, 0, 100]);
}

/// Takes the client's rescue to its end and says how many steps it took.
fn rescue(machine: &mut Machine, client: u8) -> usize {
    expect(machine, [8, client, 0, 0], &[0]);
    let mut steps = 1;
    while machine.answer([9, client, 0, 0]) != Answer::Finished {
        steps += 1;
        assert!(steps < 1000, "the rescue does not end");
    }
    steps
}

/// The client with this number.
fn client(number: u8) -> Client {
    Client::checked(number).unwrap()
}

/// Slot 5, on which most situations play.
fn slot_5() -> Slot {
    Slot::checked(5).unwrap()
}

/// Client 0, having opened the lease of slot 5 into cell 2, failed after `steps` steps.
fn failed_after(machine: &mut Machine, steps: usize) {
    expect(machine, [3, 0, 2, 5], &[0]);
    expect(machine, [6, 0, 0, 0], &vec![0; steps]);
    expect(machine, [7, 0, 0, 0], &[0]);
}

/// The records of the worked example.
fn worked_example() -> Vec<u8> {
    let mut records = vec![[1, 0, 0, 0], [3, 0, 2, 5]];
    records.extend([[6, 0, 0, 0]; 6]);
    records.extend([[0x0B, 0, 2, 0], [0x0B, 0, 3, 0]]);
    records.concat()
}

#[test]
fn a_the_worked_example_prints_its_whole_output() {
    let mut output = Vec::new();
    play(worked_example().as_slice(), &mut output).unwrap();
    let whole = "1 0\n2 0\n3 0\n4 0\n5 0\n6 0\n7 0\n8 100\n9 205\n10 199\nslot 5 1\n";
    assert_eq!(String::from_utf8(output).unwrap(), whole);
}

#[test]
fn a_the_worked_example_leaves_its_header_and_era() {
    let mut machine = Machine::fresh();
    for record in worked_example().chunks_exact(4) {
        machine.answer(record.try_into().unwrap());
    }
    let header = machine.block.headers[5];
    assert_eq!(header.word(), 4_294_967_297);
    assert_eq!(machine.block.own_era(client(0)), Era(2));
}

#[test]
fn b_failure_before_the_swap_undoes_nothing() {
    let mut machine = joined(&[0]);
    failed_after(&mut machine, 3);
    assert_eq!(rescue(&mut machine, 0), 10);
    assert_eq!(machine.count(slot_5()), 0);
    assert_eq!(machine.block.own_era(client(0)), Era(1));
    assert_eq!(machine.standing(client(0)), Standing::Absent);
}

#[test]
fn c_failure_after_the_swap_is_completed_and_released() {
    let mut machine = joined(&[0]);
    failed_after(&mut machine, 4);
    assert_eq!(rescue(&mut machine, 0), 12);
    assert_eq!(machine.count(slot_5()), 0);
    assert_eq!(machine.block.own_era(client(0)), Era(3));
    assert!(!machine.holds_any(client(0)));
}

#[test]
fn d_condition_2_finds_a_swap_that_was_built_upon() {
    let mut machine = joined(&[0, 1]);
    failed_after(&mut machine, 4);
    complete(&mut machine, [4, 1, 0, 5]);
    expect(&mut machine, [8, 0, 0, 0], &[0]);
    expect(&mut machine, [9, 0, 0, 0], &[0, 0]);
    assert!(matches!(machine.rescues[0], Rescue::Condition2(_, other) if other == client(1)));
    expect(&mut machine, [9, 0, 0, 0], &[0]);
    assert!(matches!(machine.rescues[0], Rescue::Cell(_)));
    expect(
        &mut machine,
        [9, 0, 0, 0],
        &[0, 0, 0, 0, 0, 0, 0, 0, 0, 100],
    );
    assert_eq!(machine.count(slot_5()), 1);
    assert_eq!(machine.block.own_era(client(0)), Era(3));
}

#[test]
fn e_the_second_swap_on_the_same_load_is_lost() {
    let mut machine = joined(&[0, 1, 2]);
    complete(&mut machine, [3, 2, 0, 5]);
    for number in [0, 1] {
        expect(&mut machine, [4, number, 0, 5], &[0]);
        expect(&mut machine, [6, number, 0, 0], &[0, 0, 0]);
    }
    expect(&mut machine, [6, 0, 0, 0], &[0]);
    let block = machine.block.clone();
    expect(&mut machine, [6, 1, 0, 0], &[101]);
    assert_eq!(machine.block, block);
    expect(&mut machine, [6, 1, 0, 0], &[0, 0, 0, 0, 0, 100]);
    assert_eq!(machine.count(slot_5()), 3);
}

#[test]
fn g_checks_run_in_order() {
    let mut machine = Machine::fresh();
    expect(&mut machine, [3, 8, 16, 64], &[1]);
    expect(&mut machine, [3, 0, 16, 64], &[2]);
    expect(&mut machine, [5, 0, 16, 64], &[2]);
    expect(&mut machine, [11, 0, 16, 64], &[2]);
    expect(&mut machine, [3, 0, 15, 64], &[3]);
    expect(&mut machine, [5, 0, 15, 64], &[4]);
    assert_eq!(machine, Machine::fresh());
}

#[test]
fn h_the_load_asks_for_the_count() {
    let mut machine = joined(&[0, 1]);
    expect(&mut machine, [4, 1, 0, 5], &[0]);
    expect(&mut machine, [6, 1, 0, 0], &[8, 5]);
    complete(&mut machine, [3, 0, 2, 5]);
    expect(&mut machine, [3, 1, 0, 5], &[0]);
    let block = machine.block.clone();
    expect(&mut machine, [6, 1, 0, 0], &[7, 5]);
    assert_eq!(machine.block, block);
}

#[test]
fn i_a_cell_under_release_is_not_trusted() {
    let mut machine = joined(&[0, 1, 2]);
    complete(&mut machine, [3, 0, 2, 5]);
    complete(&mut machine, [4, 1, 0, 5]);
    expect(&mut machine, [11, 0, 2, 0], &[205]);
    expect(&mut machine, [5, 0, 2, 0], &[0]);
    expect(&mut machine, [11, 0, 2, 0], &[199]);
    expect(&mut machine, [6, 0, 0, 0], &[0; 4]);
    complete(&mut machine, [5, 1, 0, 0]);
    complete(&mut machine, [3, 2, 7, 5]);
    expect(&mut machine, [11, 0, 2, 0], &[199]);
    expect(&mut machine, [11, 2, 7, 0], &[205]);
    assert_eq!(machine.block.cells[0][2], Some(slot_5()));
}

#[test]
fn j_a_second_rescuer_ends_like_the_first() {
    let mut machine = joined(&[0]);
    failed_after(&mut machine, 4);
    let mut undisturbed = machine.clone();
    expect(&mut machine, [8, 0, 0, 0], &[0]);
    expect(&mut machine, [9, 0, 0, 0], &[0, 0, 0]);
    assert_eq!(machine.block.cells[0][2], Some(slot_5()));
    expect(&mut machine, [10, 0, 0, 0], &[0]);
    assert_eq!(rescue(&mut machine, 0), 12);
    rescue(&mut undisturbed, 0);
    assert_eq!(machine, undisturbed);
    assert_eq!(machine.count(slot_5()), 0);
    assert_eq!(machine.block.own_era(client(0)), Era(3));
}

#[test]
fn leaving_asks_idleness_before_emptiness() {
    let mut machine = joined(&[0]);
    complete(&mut machine, [3, 0, 2, 5]);
    expect(&mut machine, [2, 0, 0, 0], &[10]);
    expect(&mut machine, [5, 0, 2, 0], &[0]);
    expect(&mut machine, [2, 0, 0, 0], &[5]);
    expect(&mut machine, [6, 0, 0, 0], &[0, 0, 0, 0, 0, 100]);
    expect(&mut machine, [2, 0, 0, 0], &[0, 4]);
}

#[test]
fn a_rescue_without_a_log_takes_two_steps() {
    let mut machine = joined(&[7]);
    expect(&mut machine, [7, 7, 0, 0], &[0, 4]);
    assert_eq!(rescue(&mut machine, 7), 2);
    expect(&mut machine, [1, 7, 0, 0], &[0]);
}

#[test]
fn the_era_stop_holds_back_leases_but_not_releases() {
    let mut machine = joined(&[0]);
    complete(&mut machine, [3, 0, 2, 5]);
    machine.block.matrix[0][0] = ERA_STOP;
    expect(&mut machine, [3, 0, 3, 6], &[9]);
    expect(&mut machine, [4, 0, 2, 5], &[6]);
    complete(&mut machine, [5, 0, 2, 0]);
}
