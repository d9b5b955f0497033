//! The calls to a host in random call files: table, set-up, start, tick and datagrams.

use super::draft::{self, Draft, Near, CONFLICT, RESPONSE, TENTATIVE};
use super::memory::{Memory, State, LAST_TIME};
use super::{addresses, damage, names, tables, Maker};
use crate::calls::{Address, Call, Prefix};

pub const WAITING: [State; 2] = [State::Verifying, State::Defending];
const ACTIVE: [State; 4] = [State::Verifying, State::Unique, State::Defending, State::Shared];

impl Maker {
    pub fn id(&mut self) -> u16 {
        match self.random.below(10) {
            0..=2 => self.random.pick(&[1, 2, 3]),
            3 => self.random.pick(&[0, 255, 256, 65535]),
            _ => self.random.word() as u16,
        }
    }

    pub fn prefix(&mut self, interface: usize, time: u64) -> Prefix {
        let room = self.random.pick(&[512, 512, 512, 513, 600, 9194, 65535, 65536, 65537, 1 << 20, u32::MAX]);
        Prefix { interface: interface as u8, time, id: self.id(), room }
    }

    /// A time not long after the given one, that of the last accepted call.
    pub fn soon(&mut self, clock: u64) -> u64 {
        let step = self.random.pick(&[0, 0, 0, 0, 1, 1, 7, 50, 99, 100]);
        (clock + step).min(LAST_TIME.max(clock))
    }

    /// A time about when something is due.
    pub fn about(&mut self, due: u64, clock: u64) -> u64 {
        let time = match self.random.below(20) {
            0..=9 => due,
            10..=12 => due.saturating_sub(1),
            13 | 14 => due + 1,
            15 => due + self.random.pick(&[5, 99, 100, 1000, 5000]),
            16 => due.saturating_sub(self.random.pick(&[2, 50, 900])),
            _ => clock,
        };
        time.max(clock)
    }

    /// A used interface of the host, if there is one.
    fn interface(&mut self) -> usize {
        let used = Memory::used(&self.memory.settings);
        if used.is_empty() {
            self.random.below(4)
        } else {
            self.random.pick(&used)
        }
    }

    pub fn table(&mut self) -> Call {
        let (random, memory) = (&mut self.random, &self.memory);
        if !memory.table_good && random.chance(2, 3) {
            return Call::Table(memory.table.octets());
        }
        Call::Table(match random.below(20) {
            0..=3 => tables::fresh(random, &self.pool).octets(),
            4..=10 => tables::changed(random, &self.pool, &memory.table).octets(),
            // Names that went come back, with the states that they had.
            11 | 12 => memory.table_before.octets(),
            _ => damage::damaged(random, &self.pool, &memory.table),
        })
    }

    pub fn set_up(&mut self) -> Call {
        let random = &mut self.random;
        let mut settings = addresses::settings(random);
        let mut time = match random.below(12) {
            0 => 0,
            1 => LAST_TIME - (random.pick(&[0, 0, 30_000]) + random.below(4000)) as u64,
            2 => (1 << 32) - random.below(2000) as u64,
            3 => (1 << 16) - random.below(2000) as u64,
            4 | 5 => random.word() & LAST_TIME,
            6 | 7 => self.memory.clock.saturating_sub(random.below(2) as u64),
            _ => random.below(100_000) as u64,
        };
        if random.chance(1, 5) {
            for _ in 0..random.pick(&[1, 1, 2]) {
                addresses::spoil(random, &mut settings);
            }
        }
        if random.chance(1, 20) {
            time = random.pick(&[LAST_TIME, LAST_TIME + 1, LAST_TIME + 1, u64::MAX]);
        }
        let mut prefix = self.prefix(0, time);
        // Only the time of its prefix is read.
        if self.random.chance(1, 3) {
            prefix.interface = self.random.octet();
            prefix.room = draft::odd_room(&mut self.random);
        }
        Call::SetUp { prefix, settings }
    }

    fn slip_prefix(&mut self, prefix: &mut Prefix) {
        if self.random.chance(1, 6) {
            for _ in 0..self.random.pick(&[1, 1, 1, 2]) {
                let near =
                    Near { settings: &self.memory.settings, interface: 0, clock: self.memory.clock, pool: &self.pool };
                draft::slip_prefix(&mut self.random, prefix, &near);
            }
        }
    }

    pub fn start(&mut self) -> Call {
        let resting = self.memory.names_in(&[State::Off, State::Stopped]);
        if resting.is_empty() && !self.memory.names_in(&WAITING).is_empty() && self.random.chance(2, 3) {
            return self.tick();
        }
        let gone = self.memory.gone();
        let (interface, mut name) = if !gone.is_empty() && self.random.chance(1, 6) {
            self.random.pick(&gone)
        } else if !resting.is_empty() && self.random.chance(4, 5) {
            self.random.pick(&resting)
        } else {
            (self.interface(), self.random.below(self.memory.table.names.len().max(1)))
        };
        if self.random.chance(1, 25) {
            let count = self.memory.table.names.len();
            name = self.random.pick(&[count, count + 1, 7, 8, 9, 255]);
        }
        let time = self.start_time(interface, name);
        let mut prefix = self.prefix(interface, time);
        self.slip_prefix(&mut prefix);
        Call::Start { prefix, name: name as u8 }
    }

    /// A time for a start: of a name that has stopped mostly about the end of its wait.
    fn start_time(&mut self, interface: usize, name: usize) -> u64 {
        let clock = self.memory.clock;
        match self.memory.until(interface, name) {
            Some(until) if self.random.chance(5, 6) => self.about(until.min(LAST_TIME), clock),
            _ => self.soon(clock),
        }
    }

    pub fn tick(&mut self) -> Call {
        let waiting = self.memory.names_in(&WAITING);
        let resting = !self.memory.names_in(&[State::Off, State::Stopped]).is_empty();
        if waiting.is_empty() && resting && self.random.chance(2, 3) {
            return self.start();
        }
        let clock = self.memory.clock;
        let (interface, time) = if !waiting.is_empty() && self.random.chance(9, 10) {
            // The earliest are served more often, so that names of one interface come due in one tick now and then.
            let earliest = waiting.iter().map(|&(place, name)| self.memory.checks[place][name].due).min();
            let (place, name) = self.random.pick(&waiting);
            let due = self.memory.checks[place][name].due;
            let aim = if self.random.chance(1, 2) { due } else { earliest.unwrap_or(due) };
            (place, self.about(aim, clock))
        } else {
            (self.interface(), self.soon(clock))
        };
        let mut prefix = self.prefix(interface, time);
        self.slip_prefix(&mut prefix);
        Call::Tick { prefix }
    }

    /// An address that a datagram may come from: near one of ours, often one of ours.
    pub fn source(&mut self, own: Address) -> Address {
        let random = &mut self.random;
        if random.chance(1, 12) {
            let octets = std::array::from_fn(|_| random.octet());
            return Address { family: own.family, octets };
        }
        addresses::near(random, &own)
    }

    fn draft(&mut self, interface: usize, name: Vec<u8>) -> Draft {
        let own = self.memory.settings[interface].address;
        let time = self.soon(self.memory.clock);
        let group = addresses::group(&mut self.random, own.family);
        Draft {
            prefix: self.prefix(interface, time),
            source: self.source(own),
            port: self.random.pick(&[5355, 0, 1, 1024, 0xeb14, 65535]),
            destination: group,
            id: self.id(),
            flags: 0,
            counts: [1, 0, 0, 0],
            name,
            qtype: 255,
            class: 1,
            after: Vec::new(),
            length: None,
        }
    }

    fn spelt(&mut self, name: usize) -> Vec<u8> {
        let Some(entry) = self.memory.table.names.get(name) else { return self.pool[0].clone() };
        match self.random.below(8) {
            0..=3 => entry.name.clone(),
            4..=6 => names::other_case(&mut self.random, &entry.name),
            _ => names::near(&mut self.random, &entry.name),
        }
    }

    /// A query for one of the table's names, with C set (a notice) or clear.
    fn query(&mut self, notice: bool) -> Draft {
        let wanted: &[State] = match (notice, self.random.below(6)) {
            (true, 0..=3) => &[State::Unique],
            (true, 4) => &[State::Verifying, State::Defending, State::Shared],
            (_, 5) => &[State::Off, State::Stopped],
            _ => &ACTIVE,
        };
        let chosen = self.memory.names_in(wanted);
        let (interface, name) = if chosen.is_empty() {
            (self.interface(), self.random.below(self.memory.table.names.len() + 1))
        } else {
            self.random.pick(&chosen)
        };
        self.query_for(interface, name, notice)
    }

    /// A query for the name of this number on an interface, 0 to 3.
    pub fn query_for(&mut self, interface: usize, name: usize, notice: bool) -> Draft {
        let spelt = self.spelt(name);
        let mut draft = self.draft(interface, spelt);
        let random = &mut self.random;
        draft.qtype = random.pick(&[255, 255, 255, 1, 1, 28, 28, 12, 12, 2, 0, 256, 65535]);
        draft.class = random.pick(&[1, 1, 1, 255]);
        draft.flags = if notice { CONFLICT } else { 0 };
        if random.chance(1, 3) {
            // T, TC, reserved bits and RCODE of a query are not read, nor is ARCOUNT.
            draft.flags |= random.word() as u16 & 0x03ff;
            draft.counts[3] = random.pick(&[0, 1, 5, 65535]);
        }
        if random.chance(1, 6) {
            let length = random.pick(&[1, 2, 11, 30]);
            draft.after = random.octets(length);
        }
        draft
    }

    /// A response to a check that waits, or to what might be one.
    fn response(&mut self) -> Draft {
        let mut waiting = self.memory.names_in(&WAITING);
        let defending = self.memory.names_in(&[State::Defending]);
        if !defending.is_empty() && self.random.chance(1, 3) {
            waiting = defending;
        }
        let (interface, name) = if waiting.is_empty() || self.random.chance(1, 20) {
            (self.interface(), self.random.below(self.memory.table.names.len() + 1))
        } else {
            self.random.pick(&waiting)
        };
        self.response_for(interface, name)
    }

    /// A response to the check of the name of this number on an interface, 0 to 3.
    pub fn response_for(&mut self, interface: usize, name: usize) -> Draft {
        let check = self.memory.checks[interface][name.min(7)];
        let spelt = self.spelt(name);
        let mut draft = self.draft(interface, spelt);
        let own = self.memory.settings[interface].address;
        let random = &mut self.random;
        draft.id = check.id;
        (draft.qtype, draft.class) = (check.qtype, check.class);
        draft.destination = if random.chance(3, 4) { own } else { addresses::near_group(random, own.family) };
        // T mostly set: a clear one stops a name that is being verified, whatever the source.
        let tentative = if random.chance(3, 4) { TENTATIVE } else { 0 };
        draft.flags = RESPONSE | tentative | random.word() as u16 & 0x06f0;
        self.put_answers(&mut draft);
        draft
    }

    pub fn datagram(&mut self) -> Call {
        let aim = self.random.weighted(&[40, 18, 40]);
        let awaited: &[State] = [&ACTIVE[..], &[State::Unique], &WAITING][aim];
        if self.memory.names_in(awaited).is_empty() && self.random.chance(1, 2) {
            // Little would come of it: something is set going instead.
            return if self.random.chance(1, 2) { self.start() } else { self.tick() };
        }
        let draft = match aim {
            0 => self.query(false),
            1 => self.query(true),
            _ => self.response(),
        };
        self.spoilt(draft)
    }

    /// The datagram of a draft, with a few slips in some.
    pub fn spoilt(&mut self, mut draft: Draft) -> Call {
        let interface = usize::from(draft.prefix.interface).min(3);
        for _ in 0..draft::slips(&mut self.random) {
            let near = Near { settings: &self.memory.settings, interface, clock: self.memory.clock, pool: &self.pool };
            draft::slip(&mut self.random, &mut draft, &near);
        }
        let mut octets = draft.octets();
        if self.random.chance(1, 100) {
            let length = self.random.below(60);
            octets = self.random.octets(length);
        }
        draft.call(octets)
    }
}
