//! How a random situation begins: a table, a set-up, and a history that brings a name into all its states on several
//! interfaces.

use super::draft::TENTATIVE;
use super::memory::{Memory, State};
use super::situations::{Focus, Scene};
use super::{addresses, damage, tables, Maker};
use crate::calls::{Call, Setting};
use crate::lines::Outcome;
use crate::random::Random;

/// A history has at most this many ticks for the names that it has started.
const MOST_TICKS: usize = 16;

/// A name to be started on an interface, the ticks that are to serve it there, and the datagram that follows.
struct Place {
    interface: usize,
    name: usize,
    ticks: usize,
    then: Then,
}

#[derive(Clone, Copy, PartialEq, Eq)]
enum Then {
    Nothing,
    Notice,
    Response,
}

impl Scene {
    /// A table and a set-up, most of which are accepted and use all interfaces.
    pub fn open(&mut self) {
        let octets = tables::fresh(&mut self.maker.random, &self.maker.pool).octets();
        self.call(Call::Table(octets));
        for _ in 0..3 {
            let mut call = self.maker.set_up();
            if let Call::SetUp { settings, .. } = &mut call {
                use_more(self.random(), settings);
            }
            if self.call(call) == Outcome::Ready || self.random().chance(1, 8) {
                return;
            }
        }
    }

    /// Two different interfaces, mostly used ones, and the number of a name.
    pub fn focus(&mut self) -> Focus {
        let mut numbers = Memory::used(&self.maker.memory.settings);
        if numbers.len() < 2 || self.random().chance(1, 20) {
            numbers = vec![0, 1, 2, 3];
        }
        let one = self.random().below(numbers.len());
        let other = (one + self.maker.random.between(1, numbers.len() - 1)) % numbers.len();
        let names = self.maker.memory.table.names.len().max(1);
        let mut name = self.random().below(names);
        let shared = self.maker.memory.table.names.get(name).is_some_and(|name| name.shared);
        if shared && self.random().chance(1, 2) {
            name = self.random().below(names);
        }
        Focus { interfaces: [numbers[one], numbers[other]], name }
    }

    /// Brings the name on both interfaces, and some others, into some state.
    pub fn history(&mut self, focus: &Focus) {
        let mut places: Vec<Place> =
            focus.interfaces.iter().filter_map(|interface| self.place(*interface, focus.name)).collect();
        for interface in 0..4 {
            if self.random().chance(1, 4) {
                let other = self.maker.random.below(self.names.max(1));
                let name = self.random().pick(&[focus.name, other]);
                places.extend(self.place(interface, name));
            }
        }
        if self.random().chance(1, 2) {
            places.reverse();
        }
        for place in &places {
            self.start(place);
        }
        self.serve(&mut places);
        for place in &places {
            self.follow(place);
        }
        for _ in 0..self.random().pick(&[0, 0, 1, 2, 4]) {
            let kinds = [Maker::start, Maker::tick, Maker::datagram, Maker::table];
            let kind = kinds[self.random().weighted(&[4, 4, 8, 1])];
            let call = kind(&mut self.maker);
            self.call(call);
        }
    }

    /// How far a name is brought; none leaves it as it is.
    fn place(&mut self, interface: usize, name: usize) -> Option<Place> {
        let (ticks, then) = match self.random().below(12) {
            0 | 1 => return None,
            ticks @ 2..=4 => (ticks - 2, Then::Nothing),
            5 | 6 => (3, Then::Nothing),
            7..=9 => (3, Then::Notice),
            _ => (self.random().below(3), Then::Response),
        };
        Some(Place { interface, name, ticks, then })
    }

    /// A start, now and then with a table that has turned a unique name into a shared one, or the other way round.
    fn start(&mut self, place: &Place) {
        if self.random().chance(1, 8) {
            let mut table = self.maker.memory.table.clone();
            table.names.iter_mut().skip(place.name).take(1).for_each(|name| name.shared ^= true);
            self.call(Call::Table(table.octets()));
        }
        let clock = self.maker.memory.clock;
        let time = if self.random().chance(2, 3) { clock } else { self.maker.soon(clock) };
        let prefix = self.maker.prefix(place.interface, time);
        self.call(Call::Start { prefix, name: place.name as u8 });
    }

    /// Ticks for the places, the earliest due first, until each has been served as often as it is to be.
    fn serve(&mut self, places: &mut [Place]) {
        for _ in 0..MOST_TICKS {
            let check = |place: &Place| self.maker.memory.checks[place.interface][place.name.min(7)];
            let open = places.iter().filter(|place| place.ticks > 0 && check(place).state == State::Verifying);
            let next = open.map(|place| (check(place).due, place.interface)).min();
            let Some((due, interface)) = next else { return };
            let clock = self.maker.memory.clock;
            let time = if self.random().chance(7, 8) { due.max(clock) } else { self.maker.about(due, clock) };
            let prefix = self.maker.prefix(interface, time);
            let (Outcome::Query { name: Some(served), .. } | Outcome::Unique { name: served }) =
                self.call(Call::Tick { prefix })
            else {
                continue;
            };
            let is_served = |place: &&mut Place| (place.interface, place.name) == (interface, usize::from(served));
            places.iter_mut().filter(is_served).for_each(|place| place.ticks = place.ticks.saturating_sub(1));
        }
    }

    /// The datagram that follows the ticks: a notice, or a response that stops a name that is being verified.
    fn follow(&mut self, place: &Place) {
        let mut draft = match place.then {
            Then::Nothing => return,
            Then::Notice => self.maker.query_for(place.interface, place.name, true),
            Then::Response => self.maker.response_for(place.interface, place.name),
        };
        if place.then == Then::Response {
            draft.flags &= !TENTATIVE;
        }
        let octets = draft.octets();
        self.call(draft.call(octets));
    }

    /// The table of the two calls is bad now and then; else it is the last good one.
    pub fn lend(&mut self) {
        let (random, memory) = (&mut self.maker.random, &self.maker.memory);
        let octets = match random.below(16) {
            0 => damage::damaged(random, &self.maker.pool, &memory.table),
            _ if memory.table_good => return,
            _ => memory.table.octets(),
        };
        self.call(Call::Table(octets));
    }
}

/// Makes most unused interfaces used ones, and gives them often the interval of the others.
fn use_more(random: &mut Random, settings: &mut [Setting; 4]) {
    let (interval, alike) = (random.pick(&[100, 1000]), random.chance(2, 3));
    for setting in settings {
        if !addresses::used(setting) && random.chance(4, 5) {
            setting.address.family = random.pick(&[4, 6]);
            setting.interval = interval;
        }
        if alike && matches!(setting.interval, 100 | 1000) {
            setting.interval = interval;
        }
    }
}
