//! The shared words, and an operation's six stages upon them.

use crate::answer::Answer;
use crate::words::{Cell, Client, Era, Header, Slot, CELLS, CLIENTS, SLOTS};

/// What an operation does with its slot.
#[derive(Clone, Copy, Debug, PartialEq, Eq)]
pub enum Kind {
    /// Take a free slot into an empty cell.
    Lease,
    /// Take a held slot into an empty cell as well.
    Attach,
    /// Let go of the slot in a full cell.
    Release,
}

/// An operation on one cell of a client and one slot.
#[derive(Clone, Copy, Debug, PartialEq, Eq)]
pub struct Operation {
    /// What it does.
    pub kind: Kind,
    /// The cell it fills or empties.
    pub cell: Cell,
    /// The slot whose header it swaps.
    pub slot: Slot,
}

impl Operation {
    /// What the operation leaves in its cell.
    fn cell_content(self) -> Option<Slot> {
        match self.kind {
            Kind::Lease | Kind::Attach => Some(self.slot),
            Kind::Release => None,
        }
    }

    /// The count the operation's swap writes where it read `count`.
    fn count_after(self, count: u16) -> u16 {
        match self.kind {
            Kind::Lease => 1,
            Kind::Attach => count + 1,
            Kind::Release => count.saturating_sub(1),
        }
    }
}

/// The stage an operation does next, with the header read while it is needed.
#[derive(Clone, Copy, Debug, PartialEq, Eq)]
pub enum Stage {
    /// Keep the slot's header.
    Load,
    /// Note the header's era in the client's row.
    Note(Header),
    /// Write the log.
    Log(Header),
    /// Swap the slot's header if it is still the one read.
    Swap(Header),
    /// Fill or empty the cell.
    Cell,
    /// Add one to the own era.
    Era,
}

/// An operation under way: the working record of whoever takes its steps.
#[derive(Clone, Copy, Debug, PartialEq, Eq)]
pub struct Work {
    /// The operation.
    pub operation: Operation,
    /// The stage its next step does.
    pub stage: Stage,
}

impl Work {
    /// The operation newly opened, with its load to come.
    pub fn open(operation: Operation) -> Work {
        Work {
            operation,
            stage: Stage::Load,
        }
    }

    /// The same operation at another stage.
    fn at(self, stage: Stage) -> Option<Work> {
        Some(Work { stage, ..self })
    }
}

/// A client's log entry.
#[derive(Clone, Copy, Debug, PartialEq, Eq)]
pub struct LogEntry {
    /// Kind, cell and slot.
    pub operation: Operation,
    /// The client's own era when it was written.
    pub era: Era,
    /// The count that the operation read.
    pub count: u16,
}

/// Where a client stands.
#[derive(Clone, Copy, Debug, PartialEq, Eq)]
pub enum Standing {
    /// Not joined, or gone.
    Absent,
    /// Taking its own steps.
    Running,
    /// Failed, with no rescuer.
    Failed,
    /// Failed, with a rescuer.
    InRescue,
}

/// The shared words.
#[derive(Clone, Debug, PartialEq, Eq)]
pub struct Block {
    /// A header for each slot.
    pub headers: [Header; SLOTS],
    /// Each client's cells.
    pub cells: [[Option<Slot>; CELLS]; CLIENTS],
    /// A log entry for each client.
    pub logs: [Option<LogEntry>; CLIENTS],
    /// The era matrix: entry (i, i) is i's own era, entry (i, j) the largest era of j that i has seen.
    pub matrix: [[Era; CLIENTS]; CLIENTS],
    /// Each client's standing.
    pub standings: [Standing; CLIENTS],
}

impl Block {
    /// A block that no call has touched.
    pub fn fresh() -> Block {
        let mut matrix = [[Era(0); CLIENTS]; CLIENTS];
        for (client, row) in matrix.iter_mut().enumerate() {
            row[client] = Era(1);
        }
        Block {
            headers: [Header::FRESH; SLOTS],
            cells: [[None; CELLS]; CLIENTS],
            logs: [None; CLIENTS],
            matrix,
            standings: [Standing::Absent; CLIENTS],
        }
    }

    /// The client's own era.
    pub fn own_era(&self, client: Client) -> Era {
        self.matrix[client.index()][client.index()]
    }

    /// Adds one to the client's own era.
    pub fn raise_own_era(&mut self, client: Client) {
        let own = &mut self.matrix[client.index()][client.index()];
        *own = own.next();
    }

    /// Does the work's stage as `client`: hands back the work that remains, if
    /// any, and the answer.
    pub fn do_stage(&mut self, client: Client, work: Work) -> (Option<Work>, Answer) {
        let operation = work.operation;
        match work.stage {
            Stage::Load => self.load(work),
            Stage::Note(header) => {
                self.note(client, header);
                (work.at(Stage::Log(header)), Answer::Accepted)
            }
            Stage::Log(header) => {
                self.log(client, operation, header);
                (work.at(Stage::Swap(header)), Answer::Accepted)
            }
            Stage::Swap(header) => {
                if self.swap(client, operation, header) {
                    (work.at(Stage::Cell), Answer::Accepted)
                } else {
                    (work.at(Stage::Load), Answer::SwapLost)
                }
            }
            Stage::Cell => {
                self.write_cell(client, operation);
                (work.at(Stage::Era), Answer::Accepted)
            }
            Stage::Era => {
                self.raise_own_era(client);
                (None, Answer::Finished)
            }
        }
    }

    /// Keeps the slot's header, unless its count is not what the kind asks for.
    fn load(&self, work: Work) -> (Option<Work>, Answer) {
        let header = self.headers[work.operation.slot.index()];
        match (work.operation.kind, header.count()) {
            (Kind::Lease, 1..) => (None, Answer::LeaseOfHeld),
            (Kind::Attach, 0) => (None, Answer::AttachToFree),
            _ => (work.at(Stage::Note(header)), Answer::Accepted),
        }
    }

    /// Records in the client's row that it has seen the header's era.
    fn note(&mut self, client: Client, header: Header) {
        let seen = &mut self.matrix[client.index()][header.client().index()];
        *seen = header.era().max(*seen);
    }

    /// Writes the client's log entry.
    fn log(&mut self, client: Client, operation: Operation, header: Header) {
        self.logs[client.index()] = Some(LogEntry {
            operation,
            era: self.own_era(client),
            count: header.count(),
        });
    }

    /// Swaps the slot's header if it is still the one read, and says whether it was.
    fn swap(&mut self, client: Client, operation: Operation, read: Header) -> bool {
        let count = operation.count_after(read.count());
        let written = Header::new(client, count, self.own_era(client));
        let header = &mut self.headers[operation.slot.index()];
        let won = *header == read;
        if won {
            *header = written;
        }
        won
    }

    /// Writes the client's cell as the operation leaves it.
    pub fn write_cell(&mut self, client: Client, operation: Operation) {
        self.cells[client.index()][operation.cell.index()] = operation.cell_content();
    }
}
