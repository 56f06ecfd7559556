//! The eleven calls: their checks, and what they do to block and records.
//!
//! Only limits that calls themselves can pass are checked. Whether the block
//! or a record is beyond its limits (answer 11) is never asked, since every
//! history here starts from a fresh block and none leads there.

use crate::answer::Answer;
use crate::block::{Block, Kind, Operation, Standing, Work};
use crate::rescue::Rescue;
use crate::words::{Cell, Client, Slot, CLIENTS, ERA_STOP};

/// An accepted call's answer, or the answer that refuses it.
type Outcome = Result<Answer, Answer>;

/// A block and the working records of its clients and their rescuers.
#[derive(Clone, Debug, PartialEq, Eq)]
pub struct Machine {
    block: Block,
    works: [Option<Work>; CLIENTS],
    rescues: [Rescue; CLIENTS],
}

impl Machine {
    /// A fresh block with nothing under way.
    pub fn fresh() -> Machine {
        Machine {
            block: Block::fresh(),
            works: [None; CLIENTS],
            rescues: [Rescue::START; CLIENTS],
        }
    }

    /// Makes the call of one record and answers it.
    pub fn answer(&mut self, [call, client, cell, slot]: [u8; 4]) -> Answer {
        let outcome = match call {
            1 => self.join(client),
            2 => self.leave(client),
            3 => self.open(Kind::Lease, client, cell, slot),
            4 => self.open(Kind::Attach, client, cell, slot),
            5 => self.open_release(client, cell),
            6 => self.step(client),
            7 => self.fail(client),
            8 => self.take_over(client),
            9 => self.rescue_step(client),
            10 => self.rescuer_fails(client),
            11 => self.look_up(client, cell),
            _ => Err(Answer::NoSuchCall),
        };
        outcome.unwrap_or_else(|refusal| refusal)
    }

    /// The client's standing.
    pub fn standing(&self, client: Client) -> Standing {
        self.block.standings[client.index()]
    }

    /// The operation the client has under way.
    pub fn work(&self, client: Client) -> Option<Work> {
        self.works[client.index()]
    }

    /// Where the client's rescuer stands.
    pub fn rescue(&self, client: Client) -> Rescue {
        self.rescues[client.index()]
    }

    /// What the client's cell holds.
    pub fn cell(&self, client: Client, cell: Cell) -> Option<Slot> {
        self.block.cells[client.index()][cell.index()]
    }

    /// Whether any cell of the client holds a slot.
    pub fn holds_any(&self, client: Client) -> bool {
        self.block.cells[client.index()].iter().any(Option::is_some)
    }

    /// The slot's count.
    pub fn count(&self, slot: Slot) -> u16 {
        self.block.headers[slot.index()].count()
    }

    /// Makes an absent client running.
    fn join(&mut self, client: u8) -> Outcome {
        self.pass(client, Standing::Absent, Standing::Running)
    }

    /// Makes a running client absent once it has let go of everything.
    fn leave(&mut self, client: u8) -> Outcome {
        let client = self.client_standing(client, Standing::Running)?;
        self.check_idle(client)?;
        if self.holds_any(client) {
            return Err(Answer::CellsHeld);
        }
        self.block.standings[client.index()] = Standing::Absent;
        Ok(Answer::Accepted)
    }

    /// Opens a lease or an attach at its load.
    fn open(&mut self, kind: Kind, client: u8, cell: u8, slot: u8) -> Outcome {
        let client = checked_client(client)?;
        let cell = checked_cell(cell)?;
        let slot = checked_slot(slot)?;
        self.check_standing(client, Standing::Running)?;
        self.check_idle(client)?;
        if self.cell(client, cell).is_some() {
            return Err(Answer::CellFilling);
        }
        if self.block.own_era(client) >= ERA_STOP {
            return Err(Answer::EraStop);
        }
        self.works[client.index()] = Some(Work::open(Operation { kind, cell, slot }));
        Ok(Answer::Accepted)
    }

    /// Opens a release of what the cell holds, at its load.
    fn open_release(&mut self, client: u8, cell: u8) -> Outcome {
        let client = checked_client(client)?;
        let cell = checked_cell(cell)?;
        self.check_standing(client, Standing::Running)?;
        self.check_idle(client)?;
        let slot = self.cell(client, cell).ok_or(Answer::CellFilling)?;
        let kind = Kind::Release;
        self.works[client.index()] = Some(Work::open(Operation { kind, cell, slot }));
        Ok(Answer::Accepted)
    }

    /// Does the next stage of the client's operation.
    fn step(&mut self, client: u8) -> Outcome {
        let client = self.client_standing(client, Standing::Running)?;
        let work = self.work(client).ok_or(Answer::UnderWay)?;
        let (remaining, answer) = self.block.do_stage(client, work);
        self.works[client.index()] = remaining;
        Ok(answer)
    }

    /// Makes a running client failed; its private words are lost.
    fn fail(&mut self, client: u8) -> Outcome {
        self.pass(client, Standing::Running, Standing::Failed)
    }

    /// Gives a failed client a rescuer, which starts at the first step.
    fn take_over(&mut self, client: u8) -> Outcome {
        self.pass(client, Standing::Failed, Standing::InRescue)
    }

    /// Takes the next step of the client's rescue.
    fn rescue_step(&mut self, client: u8) -> Outcome {
        let client = self.client_standing(client, Standing::InRescue)?;
        let (next, answer) = self.block.do_rescue_step(client, self.rescue(client));
        self.rescues[client.index()] = next.unwrap_or(Rescue::START);
        Ok(answer)
    }

    /// Makes a client in rescue failed again; its rescuer's words are lost.
    fn rescuer_fails(&mut self, client: u8) -> Outcome {
        self.pass(client, Standing::InRescue, Standing::Failed)
    }

    /// Says which slot the cell holds, unless its release is under way.
    fn look_up(&self, client: u8, cell: u8) -> Outcome {
        let client = checked_client(client)?;
        let cell = checked_cell(cell)?;
        self.check_standing(client, Standing::Running)?;
        let releasing = self.work(client).is_some_and(|Work { operation, .. }| {
            operation.kind == Kind::Release && operation.cell == cell
        });
        match self.cell(client, cell) {
            Some(slot) if !releasing => Ok(Answer::Holds(slot)),
            _ => Ok(Answer::NothingHeld),
        }
    }

    /// Moves the client from one standing to another, with nothing under way.
    fn pass(&mut self, client: u8, from: Standing, to: Standing) -> Outcome {
        let client = self.client_standing(client, from)?;
        self.block.standings[client.index()] = to;
        self.works[client.index()] = None;
        self.rescues[client.index()] = Rescue::START;
        Ok(Answer::Accepted)
    }

    /// Checks a client number and then the client's standing.
    fn client_standing(&self, number: u8, wanted: Standing) -> Result<Client, Answer> {
        let client = checked_client(number)?;
        self.check_standing(client, wanted)?;
        Ok(client)
    }

    /// Refuses a client whose standing is not the wanted one.
    fn check_standing(&self, client: Client, wanted: Standing) -> Result<(), Answer> {
        if self.standing(client) == wanted {
            Ok(())
        } else {
            Err(Answer::WrongStanding)
        }
    }

    /// Refuses a client that has something under way.
    fn check_idle(&self, client: Client) -> Result<(), Answer> {
        match self.work(client) {
            None => Ok(()),
            Some(_) => Err(Answer::UnderWay),
        }
    }
}

/// The client with this number, or the answer that there is none.
fn checked_client(number: u8) -> Result<Client, Answer> {
    Client::checked(number).ok_or(Answer::ClientTooLarge)
}

/// The cell with this number, or the answer that there is none.
fn checked_cell(number: u8) -> Result<Cell, Answer> {
    Cell::checked(number).ok_or(Answer::CellTooLarge)
}

/// The slot with this number, or the answer that there is none.
fn checked_slot(number: u8) -> Result<Slot, Answer> {
    Slot::checked(number).ok_or(Answer::SlotTooLarge)
}

#[cfg(test)]
mod tests;
