//! The answers to calls and their numbers.

use crate::words::Slot;

/// The answer to one record.
///
/// There is no case for number 11, a block or record beyond its limits: play
/// always starts from a fresh block, and no history from there leads to it.
#[derive(Clone, Copy, Debug, PartialEq, Eq)]
pub enum Answer {
    /// Accepted, with more to come where it is a step.
    Accepted,
    /// The client number is too large.
    ClientTooLarge,
    /// The cell number is too large.
    CellTooLarge,
    /// The slot number is too large.
    SlotTooLarge,
    /// The client's standing is wrong for the call.
    WrongStanding,
    /// Something is under way that must not be, or nothing where it must.
    UnderWay,
    /// The cell is full where it must be empty, or empty where it must be full.
    CellFilling,
    /// The lease found its slot's count not 0, and has ended.
    LeaseOfHeld,
    /// The attach found its slot's count 0, and has ended.
    AttachToFree,
    /// The client's own era is at the era stop or above.
    EraStop,
    /// The client cannot leave while a cell holds a slot.
    CellsHeld,
    /// The record is no known call.
    NoSuchCall,
    /// The file ends inside the record.
    CutRecord,
    /// The step finished the operation or the rescue.
    Finished,
    /// The swap was lost, and the load comes next.
    SwapLost,
    /// Look up: nothing is held.
    NothingHeld,
    /// Look up: this slot is held.
    Holds(Slot),
}

impl Answer {
    /// The number that is printed for the answer.
    pub fn number(self) -> u16 {
        match self {
            Answer::Accepted => 0,
            Answer::ClientTooLarge => 1,
            Answer::CellTooLarge => 2,
            Answer::SlotTooLarge => 3,
            Answer::WrongStanding => 4,
            Answer::UnderWay => 5,
            Answer::CellFilling => 6,
            Answer::LeaseOfHeld => 7,
            Answer::AttachToFree => 8,
            Answer::EraStop => 9,
            Answer::CellsHeld => 10,
            Answer::NoSuchCall => 12,
            Answer::CutRecord => 13,
            Answer::Finished => 100,
            Answer::SwapLost => 101,
            Answer::NothingHeld => 199,
            Answer::Holds(slot) => 200 + u16::from(slot.number()),
        }
    }
}
