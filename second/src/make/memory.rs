//! What the maker of a random call file remembers of the calls so far, so that the next ones can aim at the edges:
//! the table, the settings, the host's clock, each check's and lookup's ID, question and due time, and until when a
//! stopped name is left alone.

use super::tables::Table;
use crate::calls::{Call, Prefix, Setting};
use crate::faults::NONE;
use crate::history;
use crate::lines::Outcome;
use crate::message::Message;

/// The largest time that a call may have.
pub const LAST_TIME: u64 = (1 << 48) - 1;

#[derive(Clone, Copy, PartialEq, Eq, Debug)]
pub enum State {
    Off,
    Verifying,
    Unique,
    Defending,
    Stopped,
    Shared,
}

/// A name on an interface: its state, and the query that it has sent last for its check.
#[derive(Clone, Copy)]
pub struct Check {
    pub state: State,
    pub id: u16,
    pub qtype: u16,
    pub class: u16,
    /// How often it was sent since the start or the notice.
    pub sends: usize,
    pub due: u64,
    /// Until when it is left alone if it has stopped.
    pub until: u64,
}

const OFF: Check = Check { state: State::Off, id: 0, qtype: 0, class: 0, sends: 0, due: 0, until: 0 };

#[derive(Clone, Copy, PartialEq, Eq)]
pub enum Phase {
    Ended,
    Asking,
    Collecting,
}

#[derive(Clone)]
pub struct Lookup {
    pub phase: Phase,
    pub settings: [Setting; 4],
    pub interface: usize,
    pub id: u16,
    pub qtype: u16,
    pub name: Vec<u8>,
    pub clock: u64,
    pub due: u64,
}

pub struct Memory {
    /// The last good table and the one before it.
    pub table: Table,
    pub table_before: Table,
    pub table_good: bool,
    pub settings: [Setting; 4],
    pub clock: u64,
    pub checks: [[Check; 8]; 4],
    /// The settings that the next lookups get.
    pub lookup_settings: [Setting; 4],
    pub lookups: [Lookup; 4],
}

impl Memory {
    pub fn new() -> Memory {
        let settings = [Setting::UNUSED; 4];
        let lookup =
            Lookup { phase: Phase::Ended, settings, interface: 0, id: 0, qtype: 1, name: vec![0], clock: 0, due: 0 };
        Memory {
            table: Table::default(),
            table_before: Table::default(),
            table_good: true,
            settings,
            clock: 0,
            checks: [[OFF; 8]; 4],
            lookup_settings: settings,
            lookups: std::array::from_fn(|_| lookup.clone()),
        }
    }

    /// Numbers of the used interfaces among some settings.
    pub fn used(settings: &[Setting; 4]) -> Vec<usize> {
        (0..4).filter(|&place| super::addresses::used(&settings[place])).collect()
    }

    /// Interface and number of the table's names that are in one of the states, on used interfaces.
    pub fn names_in(&self, states: &[State]) -> Vec<(usize, usize)> {
        let mut found = Vec::new();
        for interface in Memory::used(&self.settings) {
            for name in 0..self.table.names.len().min(8) {
                if states.contains(&self.checks[interface][name].state) {
                    found.push((interface, name));
                }
            }
        }
        found
    }

    /// Interface and number of names that have stopped and that the table has no more.
    pub fn gone(&self) -> Vec<(usize, usize)> {
        let gone = |interface| (self.table.names.len()..8).map(move |name| (interface, name));
        let places = Memory::used(&self.settings).into_iter().flat_map(gone);
        places.filter(|(interface, name)| self.until(*interface, *name).is_some()).collect()
    }

    /// Until when a name of this number is left alone; none if it has not stopped there.
    pub fn until(&self, interface: usize, name: usize) -> Option<u64> {
        let check = self.checks[interface].get(name)?;
        (check.state == State::Stopped).then_some(check.until)
    }

    pub fn lookups_in(&self, phases: &[Phase]) -> Vec<usize> {
        (0..4).filter(|&slot| phases.contains(&self.lookups[slot].phase)).collect()
    }

    /// Takes note of a call and of what it came to.
    pub fn note(&mut self, call: &Call, outcome: &Outcome) {
        match call {
            Call::Table(octets) => {
                self.table_good = matches!(outcome, Outcome::Good { .. });
                if self.table_good {
                    self.table_before = std::mem::replace(&mut self.table, Table::read(octets));
                }
            }
            Call::SetUp { prefix, settings } => {
                self.settings = if *outcome == Outcome::Ready { *settings } else { [Setting::UNUSED; 4] };
                self.lookup_settings = self.settings;
                self.clock = if *outcome == Outcome::Ready { prefix.time } else { 0 };
                self.checks = [[OFF; 8]; 4];
            }
            Call::Settings(settings) => self.lookup_settings = *settings,
            Call::Name { .. } => {}
            Call::Ask { prefix, slot, qtype, name, .. } => {
                self.note_ask(prefix, usize::from(*slot), *qtype, name, outcome);
            }
            Call::Answer { prefix, slot, .. } | Call::AskTick { prefix, slot } => {
                self.note_lookup(prefix, usize::from(*slot), outcome);
            }
            Call::Start { prefix, .. } | Call::Datagram { prefix, .. } | Call::Tick { prefix } => {
                self.note_host(call, prefix, outcome);
            }
        }
    }

    fn note_host(&mut self, call: &Call, prefix: &Prefix, outcome: &Outcome) {
        if matches!(outcome, Outcome::Refused { .. }) {
            return;
        }
        self.clock = prefix.time;
        let interface = usize::from(prefix.interface).min(3);
        let interval = u64::from(self.settings[interface].interval);
        let checks = &mut self.checks[interface];
        let number = |name: &u8| usize::from(*name).min(7);
        match outcome {
            Outcome::Query { octets, name: Some(name), .. } => {
                let check = &mut checks[number(name)];
                check.due = prefix.time + interval;
                if matches!(call, Call::Tick { .. }) {
                    check.sends += 1;
                    return;
                }
                check.sends = 1;
                let start = matches!(call, Call::Start { .. });
                check.state = if start { State::Verifying } else { State::Defending };
                check.id = prefix.id;
                let end = &octets[octets.len() - 4..];
                check.qtype = u16::from_be_bytes([end[0], end[1]]);
                check.class = u16::from_be_bytes([end[2], end[3]]);
            }
            Outcome::Shared { name } => checks[number(name)].state = State::Shared,
            Outcome::Unique { name } => checks[number(name)].state = State::Unique,
            Outcome::Stopped { name } => {
                let check = &mut checks[number(name)];
                (check.state, check.until) = (State::Stopped, prefix.time + wait(call));
            }
            _ => {}
        }
    }

    fn note_ask(&mut self, prefix: &Prefix, slot: usize, qtype: u16, name: &[u8], outcome: &Outcome) {
        let started = matches!(outcome, Outcome::Query { .. });
        let settings = if started { self.lookup_settings } else { [Setting::UNUSED; 4] };
        self.lookups[slot] = Lookup {
            phase: if started { Phase::Asking } else { Phase::Ended },
            settings,
            interface: usize::from(prefix.interface).min(3),
            id: prefix.id,
            qtype,
            name: name.to_vec(),
            clock: if started { prefix.time } else { 0 },
            due: prefix.time.wrapping_add(lookup_interval(&settings, prefix.interface)),
        };
    }

    fn note_lookup(&mut self, prefix: &Prefix, slot: usize, outcome: &Outcome) {
        if matches!(outcome, Outcome::Refused { .. }) {
            return;
        }
        let lookup = &mut self.lookups[slot];
        lookup.clock = prefix.time;
        match outcome {
            Outcome::Query { .. } => {
                lookup.due = prefix.time + lookup_interval(&lookup.settings, lookup.interface as u8);
            }
            Outcome::Part { .. } => lookup.phase = Phase::Collecting,
            Outcome::Found { .. } | Outcome::NoSuchName => lookup.phase = Phase::Ended,
            _ => {}
        }
    }
}

/// How long a name is left alone that was lost to this datagram.
fn wait(call: &Call) -> u64 {
    let Call::Datagram { octets, .. } = call else { return 0 };
    history::wait(Message::decode(octets, NONE).claim(NONE), NONE)
}

fn lookup_interval(settings: &[Setting; 4], interface: u8) -> u64 {
    if settings[usize::from(interface).min(3)].interval == 100 {
        100
    } else {
        1000
    }
}
