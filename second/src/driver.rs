//! A driver that makes up sensible histories, call by call.
//!
//! It plays its own calls on a machine, so that it knows which call makes
//! sense next. Unused bytes of its records are random.

use crate::block::Standing;
use crate::machine::Machine;
use crate::random::Random;
use crate::words::{Cell, Client, Slot, CLIENTS};

/// The numbers of the calls.
mod call {
    pub const JOIN: u8 = 1;
    pub const LEAVE: u8 = 2;
    pub const LEASE: u8 = 3;
    pub const ATTACH: u8 = 4;
    pub const RELEASE: u8 = 5;
    pub const STEP: u8 = 6;
    pub const FAIL: u8 = 7;
    pub const TAKE_OVER: u8 = 8;
    pub const RESCUE_STEP: u8 = 9;
    pub const RESCUER_FAILS: u8 = 10;
    pub const LOOK_UP: u8 = 11;
}

/// The clients, cells and slots a history plays on.
#[derive(Clone, Debug)]
pub struct World {
    clients: Vec<Client>,
    cells: Vec<Cell>,
    slots: Vec<Slot>,
}

impl World {
    /// A world of so many clients, cells and slots, at least one of each.
    pub fn random(random: &mut Random, clients: usize, cells: usize, slots: usize) -> World {
        World {
            clients: random.some(Client::all(), clients),
            cells: random.some(Cell::all(), cells),
            slots: random.some(Slot::all(), slots),
        }
    }

    /// A world as small as contention likes it, and now and then a large one.
    pub fn crowded(random: &mut Random) -> World {
        let clients = random.pick(&[2, 3, 3, 4, 5, 8]);
        let cells = random.pick(&[1, 2, 2, 3, 4, 16]);
        let slots = random.pick(&[1, 2, 2, 3, 3, 4, 4, 64]);
        World::random(random, clients, cells, slots)
    }
}

/// How often a history does what, in thousandths.
#[derive(Clone, Copy, Debug)]
pub struct Habits {
    /// The client that acted last acts again.
    pub linger: u32,
    /// An operation is doomed to fail after some step.
    pub doomed: u32,
    /// A rescuer is doomed to fail after some step.
    pub doomed_rescuer: u32,
    /// A failed client waits another turn for its rescuer.
    pub neglect: u32,
    /// A client looks a cell up between its steps.
    pub look_up: u32,
    /// A client with nothing under way leaves if it can.
    pub leave: u32,
    /// A lease or attach is opened on a slot that does not suit it.
    pub unsuited: u32,
    /// A call with numbers of the world is made whether or not it makes sense.
    pub stray: u32,
    /// A call has numbers that are too large.
    pub bad: u32,
}

impl Habits {
    /// Habits of a quick history in which nearly every call is accepted.
    pub const STEADY: Habits = Habits {
        linger: 700,
        doomed: 20,
        doomed_rescuer: 100,
        neglect: 100,
        look_up: 20,
        leave: 20,
        unsuited: 5,
        stray: 0,
        bad: 0,
    };

    /// Habits of a restless history, drawn anew for each.
    pub fn random(random: &mut Random) -> Habits {
        Habits {
            linger: random.pick(&[0, 300, 600, 850]),
            doomed: random.pick(&[20, 150, 500]),
            doomed_rescuer: random.pick(&[50, 300, 700]),
            neglect: random.pick(&[0, 500, 900]),
            look_up: random.pick(&[20, 100, 250]),
            leave: random.pick(&[20, 150, 400]),
            unsuited: random.pick(&[10, 80]),
            stray: random.pick(&[0, 10, 50]),
            bad: 0,
        }
    }
}

/// Makes up a history, one record after the other.
#[derive(Clone, Debug)]
pub struct Driver {
    random: Random,
    world: World,
    habits: Habits,
    machine: Machine,
    /// The client whose turn it is.
    turn: Client,
    /// For each client, after how many more steps it or its rescuer fails.
    dooms: [Option<u32>; CLIENTS],
}

impl Driver {
    /// A driver at the start of its history.
    pub fn new(mut random: Random, world: World, habits: Habits) -> Driver {
        Driver {
            turn: random.pick(&world.clients),
            random,
            world,
            habits,
            machine: Machine::fresh(),
            dooms: [None; CLIENTS],
        }
    }

    /// The next record of the history.
    pub fn next_record(&mut self) -> [u8; 4] {
        let record = if self.random.chance(self.habits.bad) {
            self.bad_record()
        } else if self.random.chance(self.habits.stray) {
            self.stray_record()
        } else {
            self.sensible_record()
        };
        self.machine.answer(record);
        record
    }

    /// A record of the client whose turn it is, as its standing suggests.
    fn sensible_record(&mut self) -> [u8; 4] {
        self.next_turn();
        match self.machine.standing(self.turn) {
            Standing::Absent => self.simple(call::JOIN),
            Standing::Running if self.doom_has_come() => self.simple(call::FAIL),
            Standing::Running if self.random.chance(self.habits.look_up) => self.look_up(),
            Standing::Running if self.machine.work(self.turn).is_some() => {
                self.count_down();
                self.simple(call::STEP)
            }
            Standing::Running => self.idle_record(),
            Standing::Failed => {
                let within = self.random.pick(&[4, 12, 24, 80]);
                self.draw_doom(self.habits.doomed_rescuer, within);
                self.simple(call::TAKE_OVER)
            }
            Standing::InRescue if self.doom_has_come() => self.simple(call::RESCUER_FAILS),
            Standing::InRescue => {
                self.count_down();
                self.simple(call::RESCUE_STEP)
            }
        }
    }

    /// Decides whose turn it is now.
    fn next_turn(&mut self) {
        if !self.random.chance(self.habits.linger) {
            self.turn = self.random.pick(&self.world.clients);
        }
        let failed = self.machine.standing(self.turn) == Standing::Failed;
        if failed && self.random.chance(self.habits.neglect) {
            self.turn = self.random.pick(&self.world.clients);
        }
    }

    /// A record of a running client with nothing under way.
    fn idle_record(&mut self) -> [u8; 4] {
        if self.random.chance(self.habits.leave) && self.may_leave() {
            return self.simple(call::LEAVE);
        }
        self.draw_doom(self.habits.doomed, 7);
        let cell = self.random.pick(&self.world.cells);
        if self.machine.cell(self.turn, cell).is_some() {
            return self.with_cell(call::RELEASE, cell);
        }
        let slot = self.random.pick(&self.world.slots);
        let held = self.machine.count(slot) > 0;
        let unsuited = self.random.chance(self.habits.unsuited);
        let call = if held == unsuited {
            call::LEASE
        } else {
            call::ATTACH
        };
        [call, self.turn.number(), cell.number(), slot.number()]
    }

    /// Whether a leave makes sense, or seldom that it is tried without.
    fn may_leave(&mut self) -> bool {
        !self.machine.holds_any(self.turn) || self.random.chance(50)
    }

    /// A look up of one of the world's cells.
    fn look_up(&mut self) -> [u8; 4] {
        let cell = self.random.pick(&self.world.cells);
        self.with_cell(call::LOOK_UP, cell)
    }

    /// A call that uses a cell and no slot.
    fn with_cell(&mut self, call: u8, cell: Cell) -> [u8; 4] {
        [call, self.turn.number(), cell.number(), self.random.byte()]
    }

    /// A call that uses no cell and no slot.
    fn simple(&mut self, call: u8) -> [u8; 4] {
        let [cell, slot, ..] = self.random.bits().to_le_bytes();
        [call, self.turn.number(), cell, slot]
    }

    /// Any call with numbers of the world.
    fn stray_record(&mut self) -> [u8; 4] {
        [
            self.random.between(call::JOIN, call::LOOK_UP),
            self.random.pick(&self.world.clients).number(),
            self.random.pick(&self.world.cells).number(),
            self.random.pick(&self.world.slots).number(),
        ]
    }

    /// A stray record with some of its numbers too large, or an unknown call.
    fn bad_record(&mut self) -> [u8; 4] {
        let mut record = self.stray_record();
        let spoiled = self.random.between(1, 15);
        for (place, bound) in [call::LOOK_UP + 1, 8, 16, 64].into_iter().enumerate() {
            if spoiled >> place & 1 == 1 {
                record[place] = self.too_large(bound);
            }
        }
        if record[0] == call::LOOK_UP + 1 && self.random.chance(500) {
            record[0] = 0;
        }
        record
    }

    /// A number of at least `bound`; the bound and 255 come often.
    fn too_large(&mut self, bound: u8) -> u8 {
        match self.random.below(4) {
            0 | 1 => bound,
            2 => self.random.between(bound, 255),
            _ => 255,
        }
    }

    /// Decides, with the given chance, that the client whose turn it is or its
    /// rescuer fails after fewer than `within` steps.
    fn draw_doom(&mut self, in_thousand: u32, within: u32) {
        let doomed = self.random.chance(in_thousand);
        let doom = doomed.then(|| self.random.below(within));
        self.dooms[self.turn.index()] = doom;
    }

    /// Whether the time to fail is now; it is then over.
    fn doom_has_come(&mut self) -> bool {
        let doom = &mut self.dooms[self.turn.index()];
        doom.take_if(|steps| *steps == 0).is_some()
    }

    /// Counts a step towards the doom.
    fn count_down(&mut self) {
        if let Some(steps) = &mut self.dooms[self.turn.index()] {
            *steps -= 1;
        }
    }
}

#[cfg(test)]
mod tests {
    use super::*;
    use crate::block::{Kind, Stage};
    use crate::rescue::Rescue;
    use std::collections::HashSet;

    /// A number for each stage.
    fn stage_number(stage: Stage) -> usize {
        match stage {
            Stage::Load => 1,
            Stage::Note(_) => 2,
            Stage::Log(_) => 3,
            Stage::Swap(_) => 4,
            Stage::Cell => 5,
            Stage::Era => 6,
        }
    }

    /// A number for each step of a rescue.
    fn rescue_number(rescue: Rescue) -> usize {
        match rescue {
            Rescue::ReadLog => 1,
            Rescue::Condition1(_) => 2,
            Rescue::Condition2(_, other) => 10 + other.index(),
            Rescue::Cell(_) => 4,
            Rescue::Era => 5,
            Rescue::Search => 6,
            Rescue::Release(work) => 20 + stage_number(work.stage),
        }
    }

    /// The histories of some seeds, each told record by record to `watch`
    /// together with the machine the record is about to meet.
    fn watch_histories(mut watch: impl FnMut(&Machine, [u8; 4])) {
        for seed in 0..60 {
            let mut random = Random::seeded(seed);
            let world = World::crowded(&mut random);
            let habits = Habits::random(&mut random);
            let mut driver = Driver::new(random, world, habits);
            for _ in 0..5000 {
                let before = driver.machine.clone();
                watch(&before, driver.next_record());
            }
        }
    }

    #[test]
    fn clients_fail_at_every_stage_of_every_kind() {
        let mut seen = HashSet::new();
        watch_histories(|machine, [call, client, ..]| {
            let work = Client::checked(client).and_then(|client| machine.work(client));
            if let (call::FAIL, Some(work)) = (call, work) {
                let kinds = [Kind::Lease, Kind::Attach, Kind::Release];
                let kind = kinds.iter().position(|&kind| kind == work.operation.kind);
                seen.insert((kind, stage_number(work.stage)));
            }
        });
        assert_eq!(seen.len(), 3 * 6);
    }

    #[test]
    fn rescuers_fail_at_every_step() {
        let mut seen = HashSet::new();
        watch_histories(|machine, [call, client, ..]| {
            if let (call::RESCUER_FAILS, Some(client)) = (call, Client::checked(client)) {
                seen.insert(rescue_number(machine.rescue(client)));
            }
        });
        assert_eq!(seen.len(), 6 - 1 + CLIENTS + 6);
    }

    #[test]
    fn every_answer_but_the_era_stop_is_met() {
        let mut seen = HashSet::new();
        watch_histories(|machine, record| {
            seen.insert(machine.clone().answer(record).number().min(200));
        });
        let mut met: Vec<u16> = seen.into_iter().collect();
        met.sort();
        assert_eq!(met, [0, 4, 5, 6, 7, 8, 10, 100, 101, 199, 200]);
    }
}
