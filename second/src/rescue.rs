//! The rescue of a failed client, one step at a time.

use crate::answer::Answer;
use crate::block::{Block, Kind, LogEntry, Operation, Standing, Work};
use crate::words::{Cell, Client};

/// The step a rescuer takes next: its working record.
#[derive(Clone, Copy, Debug, PartialEq, Eq)]
pub enum Rescue {
    /// Read and keep the client's log.
    ReadLog,
    /// Ask whether the logged slot's header still shows the client's swap.
    Condition1(LogEntry),
    /// Ask whether this other client has seen the client's own era.
    Condition2(LogEntry, Client),
    /// Write the cell as the logged operation would have.
    Cell(LogEntry),
    /// Add one to the client's own era.
    Era,
    /// Look for the lowest cell that holds a slot.
    Search,
    /// Go on with the release of such a cell.
    Release(Work),
}

impl Rescue {
    /// Where a rescuer with nothing under way stands.
    pub const START: Rescue = Rescue::ReadLog;

    /// Condition 2 at the given client, or the search if there is none left.
    fn condition_2(log: LogEntry, next: Option<Client>) -> Rescue {
        match next {
            Some(other) => Rescue::Condition2(log, other),
            None => Rescue::Search,
        }
    }
}

impl Block {
    /// Takes one step of the client's rescue: hands back the step to take
    /// next, if the rescue is not finished, and the answer.
    pub fn do_rescue_step(&mut self, client: Client, at: Rescue) -> (Option<Rescue>, Answer) {
        let next = match at {
            Rescue::ReadLog => self.logs[client.index()].map_or(Rescue::Search, Rescue::Condition1),
            Rescue::Condition1(log) if self.swap_stands(client, log) => Rescue::Cell(log),
            Rescue::Condition1(log) => Rescue::condition_2(log, client.other_from(0)),
            Rescue::Condition2(log, other) if self.has_seen(other, client) => Rescue::Cell(log),
            Rescue::Condition2(log, other) => Rescue::condition_2(log, client.other_after(other)),
            Rescue::Cell(log) => {
                self.write_cell(client, log.operation);
                Rescue::Era
            }
            Rescue::Era => {
                self.raise_own_era(client);
                Rescue::Search
            }
            Rescue::Search => return self.search(client),
            Rescue::Release(work) => return self.go_on_releasing(client, work),
        };
        (Some(next), Answer::Accepted)
    }

    /// Condition 1: the logged slot's header was last swapped by the client in its own era.
    fn swap_stands(&self, client: Client, log: LogEntry) -> bool {
        let header = self.headers[log.operation.slot.index()];
        header.client() == client && header.era() == self.own_era(client)
    }

    /// Condition 2 at one matrix entry: `other` has seen the client's own era.
    fn has_seen(&self, other: Client, client: Client) -> bool {
        self.matrix[other.index()][client.index()] >= self.own_era(client)
    }

    /// Opens the release of the lowest full cell, or ends the rescue where there is none.
    fn search(&mut self, client: Client) -> (Option<Rescue>, Answer) {
        let cells = &self.cells[client.index()];
        let full = Cell::all().find_map(|cell| Some((cell, cells[cell.index()]?)));
        let Some((cell, slot)) = full else {
            self.standings[client.index()] = Standing::Absent;
            return (None, Answer::Finished);
        };
        let kind = Kind::Release;
        let work = Work::open(Operation { kind, cell, slot });
        (Some(Rescue::Release(work)), Answer::Accepted)
    }

    /// Does one stage of the rescuer's release; its end leads back to the search.
    fn go_on_releasing(&mut self, client: Client, work: Work) -> (Option<Rescue>, Answer) {
        match self.do_stage(client, work) {
            (Some(work), answer) => (Some(Rescue::Release(work)), answer),
            (None, _) => (Some(Rescue::Search), Answer::Accepted),
        }
    }
}
