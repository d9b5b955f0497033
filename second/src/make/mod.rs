//! Random call files that aim at the edges of the rules. Each call is made so that it would go far, and then one or
//! two things of some of them are spoilt. This program's own session says what a call came to, which the maker
//! remembers; it is right up to the first line in which two programs differ, and no line after that one counts.

mod addresses;
mod answers;
mod beginnings;
mod damage;
mod draft;
mod ends;
mod host;
mod lookups;
mod masks;
mod memory;
mod names;
pub mod pairs;
mod pointers;
mod probes;
mod reverse;
mod sheet;
pub mod situations;
mod tables;

use crate::calls::Call;
use crate::random::Random;
use crate::session::Session;
use memory::{Memory, Phase, State, LAST_TIME};
use std::panic::{catch_unwind, AssertUnwindSafe};

/// The calls in the order of the weights below.
const CALLS: [fn(&mut Maker) -> Call; 10] = [
    Maker::table,
    Maker::set_up,
    Maker::start,
    Maker::datagram,
    Maker::tick,
    Maker::lookup_settings,
    Maker::ask,
    Maker::answer,
    Maker::ask_tick,
    Maker::name,
];
const TABLE: usize = 0;
const SET_UP: usize = 1;
const START: usize = 2;
const ASK: usize = 6;

/// How often each call is made: files about the host, about lookups, and about both.
const WEIGHTS: [[usize; 10]; 3] =
    [[4, 1, 10, 42, 28, 0, 1, 1, 1, 3], [1, 1, 2, 4, 3, 2, 14, 44, 24, 4], [3, 1, 8, 26, 18, 1, 8, 22, 12, 3]];

pub struct Maker {
    random: Random,
    memory: Memory,
    /// The names that this file is about.
    pool: Vec<Vec<u8>>,
    weights: [usize; 10],
    session: Session,
}

impl Maker {
    fn new(seed: u64) -> Maker {
        let mut random = Random::new(seed);
        let pool = names::pool(&mut random);
        let weights = random.pick(&[WEIGHTS[0], WEIGHTS[0], WEIGHTS[1], WEIGHTS[2]]);
        Maker { random, memory: Memory::new(), pool, weights, session: Session::new(0) }
    }

    /// The first two calls are mostly a good table and a set-up, so that the later ones have something to act on.
    fn next(&mut self, number: usize) -> Call {
        match number {
            0 if self.random.chance(9, 10) => return Call::Table(tables::fresh(&mut self.random, &self.pool).octets()),
            1 if self.random.chance(9, 10) => return self.set_up(),
            _ => {}
        }
        let nameless = self.memory.table.names.is_empty();
        if (nameless || !self.memory.table_good) && self.random.chance(1, 4) {
            return self.table();
        }
        let mut weights = self.weights;
        let host = !Memory::used(&self.memory.settings).is_empty();
        if !host || self.memory.clock > LAST_TIME - 100 {
            // Nothing comes due any more; with a bad table a set-up does not help.
            let helps = self.memory.table_good || self.random.chance(1, 4);
            weights[if helps { SET_UP } else { TABLE }] += 60;
        }
        if self.memory.names_in(&[State::Off]).len() > self.memory.names_in(&[State::Verifying]).len() {
            weights[START] *= 2;
        }
        if self.memory.lookups_in(&[Phase::Ended]).len() > 2 {
            weights[ASK] *= 3;
        }
        CALLS[self.random.weighted(&weights)](self)
    }
}

/// A random call file of about `calls` entries, the same for the same seed.
pub fn make(seed: u64, calls: usize) -> Vec<u8> {
    let mut maker = Maker::new(seed);
    let mut file = Vec::new();
    let count = calls - calls / 10 + maker.random.below(calls / 5 + 1);
    for number in 0..count {
        let call = maker.next(number);
        let entry = call.encode();
        // Room is left for a damaged end.
        if file.len() + entry.len() > ends::LARGEST_FILE - 500 {
            break;
        }
        file.extend(entry);
        let session = &mut maker.session;
        match catch_unwind(AssertUnwindSafe(|| session.call(&call))) {
            Ok(outcome) => maker.memory.note(&call, &outcome),
            // A call that this program does not stand: the comparison will show it.
            Err(_) => return file,
        }
    }
    ends::finish(&mut maker.random, &mut file);
    file
}

#[cfg(test)]
mod tests {
    use super::*;

    #[test]
    fn the_same_seed_makes_the_same_file() {
        for seed in 0..5 {
            assert_eq!(make(seed, 60), make(seed, 60));
            assert_ne!(make(seed, 60), make(seed + 1, 60));
        }
    }

    #[test]
    fn most_files_run_through() {
        let through = (0..50).filter(|&seed| crate::calls::read(&make(seed, 60)).1.is_none()).count();
        assert!((25..50).contains(&through));
    }
}
