//! What a call gave, in a form that is the same for every implementation, so that results can be compared.

use bench::plain::refusal::Refusal;
use bench::plain::state::{Endpoint, Host, Lookup, LookupOutcome, Outcome, ROOM};
use std::time::Duration;

#[derive(Clone, PartialEq, Eq, Debug)]
pub enum State {
    Host(Box<Host>),
    Lookup(Box<Lookup>),
}

/// An outcome by its numbers; those that do not apply are zero.
#[derive(Clone, Copy, PartialEq, Eq, Debug, Default)]
pub struct Told {
    pub what: u8,
    pub refusal: u8,
    pub at: usize,
    pub name: usize,
    pub len: usize,
    pub answers: u16,
}

/// The state after the last call, its outcome, where to send, and the output buffer.
#[derive(Clone, PartialEq, Eq, Debug)]
pub struct Seen {
    pub state: State,
    pub told: Told,
    pub to: Endpoint,
    pub out: [u8; ROOM],
}

/// How long the calls took together, and what the last one gave.
pub struct Run {
    pub time: Duration,
    pub seen: Seen,
}

impl Run {
    pub fn new(time: Duration, state: State, (told, to): (impl Into<Told>, Endpoint), out: [u8; ROOM]) -> Run {
        Run { time, seen: Seen { state, told: told.into(), to, out } }
    }
}

fn refused(refusal: Refusal) -> Told {
    let at = if let Refusal::Table { at } = refusal { at } else { 0 };
    Told { refusal: refusal.number(), at, ..Told::default() }
}

impl From<Outcome> for Told {
    fn from(outcome: Outcome) -> Told {
        let told = |what, name, len| Told { what, name, len, ..Told::default() };
        match outcome {
            Outcome::Refused(refusal) => refused(refusal),
            Outcome::Ready => told(1, 0, 0),
            Outcome::Quiet => told(2, 0, 0),
            Outcome::Kept { name } => told(3, name, 0),
            Outcome::Query { name, len } => told(4, name, len),
            Outcome::Reply { len } => told(5, 0, len),
            Outcome::Unique { name } => told(6, name, 0),
            Outcome::Shared { name } => told(7, name, 0),
            Outcome::Stopped { name } => told(8, name, 0),
        }
    }
}

impl From<LookupOutcome> for Told {
    fn from(outcome: LookupOutcome) -> Told {
        let told = |what, at, len, answers| Told { what, at, len, answers, ..Told::default() };
        match outcome {
            LookupOutcome::Refused(refusal) => refused(refusal),
            LookupOutcome::Quiet => told(2, 0, 0, 0),
            LookupOutcome::Query { len } => told(4, 0, len, 0),
            LookupOutcome::Part { at, answers } => told(9, at, 0, answers),
            LookupOutcome::Found { at, answers } => told(10, at, 0, answers),
            LookupOutcome::Collected => told(11, 0, 0, 0),
            LookupOutcome::NoSuchName => told(12, 0, 0, 0),
        }
    }
}
