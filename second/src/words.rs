//! The numbers and words a block is made of.

/// How many clients share a block.
pub const CLIENTS: usize = 8;

/// How many slots a block has.
pub const SLOTS: usize = 64;

/// How many cells each client has.
pub const CELLS: usize = 16;

/// A client opens no lease or attach once its own era has come this far.
pub const ERA_STOP: Era = Era(4_294_967_200);

/// An era of some client.
#[derive(Clone, Copy, Debug, PartialEq, Eq, PartialOrd, Ord)]
pub struct Era(pub u32);

impl Era {
    /// The era after this one.
    pub fn next(self) -> Era {
        Era(self.0 + 1)
    }
}

/// A client number that has passed its check.
#[derive(Clone, Copy, Debug, PartialEq, Eq)]
pub struct Client(u8);

impl Client {
    /// The client with this number, if there is one.
    pub fn checked(number: u8) -> Option<Client> {
        (usize::from(number) < CLIENTS).then_some(Client(number))
    }

    /// All clients, ascending.
    pub fn all() -> impl Iterator<Item = Client> {
        (0..CLIENTS as u8).map(Client)
    }

    /// The client's number.
    pub fn number(self) -> u8 {
        self.0
    }

    /// The place of this client in tables with one entry for each client.
    pub fn index(self) -> usize {
        usize::from(self.0)
    }

    /// The lowest client other than this one whose number is at least `from`.
    pub fn other_from(self, from: u8) -> Option<Client> {
        Client::checked(if from == self.0 { from + 1 } else { from })
    }

    /// The lowest client other than this one that comes after `previous`.
    pub fn other_after(self, previous: Client) -> Option<Client> {
        self.other_from(previous.0 + 1)
    }
}

/// A cell number that has passed its check.
#[derive(Clone, Copy, Debug, PartialEq, Eq)]
pub struct Cell(u8);

impl Cell {
    /// The cell with this number, if there is one.
    pub fn checked(number: u8) -> Option<Cell> {
        (usize::from(number) < CELLS).then_some(Cell(number))
    }

    /// All cells of a client, ascending.
    pub fn all() -> impl Iterator<Item = Cell> {
        (0..CELLS as u8).map(Cell)
    }

    /// The cell's number.
    pub fn number(self) -> u8 {
        self.0
    }

    /// The place of this cell among its client's cells.
    pub fn index(self) -> usize {
        usize::from(self.0)
    }
}

/// A slot number that has passed its check.
#[derive(Clone, Copy, Debug, PartialEq, Eq)]
pub struct Slot(u8);

impl Slot {
    /// The slot with this number, if there is one.
    pub fn checked(number: u8) -> Option<Slot> {
        (usize::from(number) < SLOTS).then_some(Slot(number))
    }

    /// All slots of a block, ascending.
    pub fn all() -> impl Iterator<Item = Slot> {
        (0..SLOTS as u8).map(Slot)
    }

    /// The slot's number.
    pub fn number(self) -> u8 {
        self.0
    }

    /// The place of this slot in tables with one entry for each slot.
    pub fn index(self) -> usize {
        usize::from(self.0)
    }
}

/// A slot's header: era of the last swap in bits 0 to 31, count in bits 32 to
/// 47, client of the last swap in bits 48 to 55, and zero above.
#[derive(Clone, Copy, Debug, PartialEq, Eq)]
pub struct Header(u64);

impl Header {
    /// The header of a slot that no swap has touched.
    pub const FRESH: Header = Header(0);

    /// The header that a swap writes.
    pub fn new(client: Client, count: u16, era: Era) -> Header {
        Header(u64::from(client.0) << 48 | u64::from(count) << 32 | u64::from(era.0))
    }

    /// The whole 64-bit word.
    pub fn word(self) -> u64 {
        self.0
    }

    /// The client of the last swap.
    pub fn client(self) -> Client {
        Client((self.0 >> 48) as u8)
    }

    /// How many cells hold the slot, as far as swaps have told.
    pub fn count(self) -> u16 {
        (self.0 >> 32) as u16
    }

    /// The era of the last swap.
    pub fn era(self) -> Era {
        Era(self.0 as u32)
    }
}
