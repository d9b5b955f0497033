//! One host of a link: what it is given once, its calls with their outcomes, and the state of the name that these tell.

use crate::calls::{Address, Call, Prefix, Setting};
use crate::lines::Outcome;
use crate::session::Session;

/// The latest time that a call may have.
pub const LATEST: u64 = (1 << 48) - 1;

/// Every buffer has room for whatever a host may send.
pub const LEAST_ROOM: u32 = 512;

/// The state of the name on the used interface, as a caller is told. Defending needs a query with C set, which
/// no host sends here.
#[derive(Clone, Copy, PartialEq, Eq, Debug)]
pub enum State {
    Off,
    Checking,
    Holding,
    Stopped,
}

/// What a host is given once and keeps for all lists of a run.
#[derive(Clone)]
pub struct Given {
    pub table: Vec<u8>,
    /// How many names the table has, and the number of the name among them.
    pub names: u8,
    pub number: u8,
    /// The name as it stands in this table.
    pub name: Vec<u8>,
    pub settings: [Setting; 4],
    pub used: u8,
    pub set_up: Prefix,
}

impl Given {
    pub fn address(&self) -> Address {
        self.settings[usize::from(self.used)].address
    }

    pub fn interval(&self) -> u64 {
        u64::from(self.settings[usize::from(self.used)].interval)
    }
}

pub struct Host {
    pub given: Given,
    pub calls: Vec<Call>,
    pub outcomes: Vec<Outcome>,
    /// The entry numbers of the calls that told the state, one for each list.
    pub told: Vec<usize>,
    /// The state that the outcomes so far tell, when a checking host is due, and its last accepted time.
    pub state: State,
    pub due: u64,
    pub clock: u64,
    /// The entry number of the last set-up.
    fresh: usize,
    session: Session,
}

impl Host {
    /// A host with its table lent, but not yet set up.
    pub fn new(given: Given) -> Host {
        let mut host = Host {
            calls: Vec::new(),
            outcomes: Vec::new(),
            told: Vec::new(),
            state: State::Off,
            due: 0,
            clock: 0,
            fresh: 0,
            session: Session::new(0),
            given,
        };
        host.call(Call::Table(host.given.table.clone()));
        host
    }

    /// Set-up; a second one makes the host fresh again.
    pub fn set_up(&mut self) -> Outcome {
        self.fresh = self.calls.len();
        self.call(Call::SetUp { prefix: self.given.set_up, settings: self.given.settings })
    }

    pub fn call(&mut self, call: Call) -> Outcome {
        let outcome = self.session.call(&call);
        if let (Some(prefix), false) = (call.prefix(), matches!(outcome, Outcome::Refused { .. })) {
            self.clock = prefix.time;
        }
        match (&call, &outcome) {
            (Call::SetUp { .. }, _) => self.state = State::Off,
            (Call::Start { .. } | Call::Tick { .. }, Outcome::Query { .. }) => {
                self.state = State::Checking;
                self.due = self.clock + self.given.interval();
            }
            (_, Outcome::Unique { .. }) => self.state = State::Holding,
            (_, Outcome::Stopped { .. }) => self.state = State::Stopped,
            _ => {}
        }
        self.calls.push(call);
        self.outcomes.push(outcome.clone());
        outcome
    }

    /// The state that a copy of the host tells by this call.
    pub fn copy_tells(&self, call: &Call) -> Option<State> {
        let mut copy = Session::new(0);
        // The table, then all calls since the last set-up.
        for call in self.calls[..1].iter().chain(&self.calls[self.fresh..]) {
            copy.call(call);
        }
        told_state(&copy.call(call))
    }

    /// The state that this call tells as the last one of a list.
    pub fn tell(&mut self, call: Call) -> Option<State> {
        self.told.push(self.calls.len());
        told_state(&self.call(call))
    }
}

/// What the answer to a start's query for the name tells.
fn told_state(outcome: &Outcome) -> Option<State> {
    match outcome {
        Outcome::Refused { no: 12, .. } => Some(State::Off),
        Outcome::Refused { no: 13, .. } => Some(State::Stopped),
        Outcome::Reply { octets, .. } if tentative(octets) => Some(State::Checking),
        Outcome::Reply { .. } => Some(State::Holding),
        _ => None,
    }
}

/// The query that a start sends: flags 0, one question, type 255, class 1.
pub fn start_query(id: u16, name: &[u8]) -> Vec<u8> {
    let mut octets = id.to_be_bytes().to_vec();
    octets.extend([0, 0, 0, 1, 0, 0, 0, 0, 0, 0]);
    octets.extend(name);
    octets.extend([0, 255, 0, 1]);
    octets
}

/// Whether the T bit of a message is set.
pub fn tentative(octets: &[u8]) -> bool {
    octets.get(2).is_some_and(|flags| flags & 1 == 1)
}

/// The group address of a family.
pub fn group(family: u8) -> Address {
    let mut octets = [0; 16];
    if family == 4 {
        octets[..4].copy_from_slice(&[224, 0, 0, 252]);
    } else {
        octets[..2].copy_from_slice(&[0xff, 2]);
        octets[13..].copy_from_slice(&[1, 0, 3]);
    }
    Address { family, octets }
}

/// The octets of an address that its family uses.
pub fn used_octets(address: &Address) -> &[u8] {
    &address.octets[..if address.family == 4 { 4 } else { 16 }]
}
