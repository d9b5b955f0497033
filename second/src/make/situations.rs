//! Random situations for the question whether the order of two calls matters: calls that lead to some state of a host
//! (`beginnings.rs`), the two calls, and calls that show the state after them (`probes.rs`).

use super::memory::{Check, State, LAST_TIME};
use super::{draft, Maker};
use crate::calls::{Call, Prefix, Setting};
use crate::lines::Outcome;
use crate::random::Random;

/// Where and when the two calls are made.
#[derive(Clone, Copy, PartialEq, Eq, Debug)]
pub enum Wish {
    /// On two interfaces, at one time.
    TwoInterfaces,
    /// On one interface, at one time.
    OneInterface,
    /// On two interfaces, the second call at a later time.
    TwoTimes,
}

impl Wish {
    pub fn words(self) -> &'static str {
        match self {
            Wish::TwoInterfaces => "on two interfaces at one time",
            Wish::OneInterface => "on one interface at one time",
            Wish::TwoTimes => "on two interfaces at two times",
        }
    }
}

/// Calls that lead to a state, two calls, and calls that show the state after them.
pub struct Situation {
    pub before: Vec<Call>,
    pub pair: [Call; 2],
    pub after: Vec<Call>,
    /// What each of the two came to, made in this order.
    pub outcomes: [Outcome; 2],
    pub facts: Facts,
}

/// What is worth counting about the state in which the two calls are made.
pub struct Facts {
    pub clock: u64,
    pub table_good: bool,
    pub settings: [Setting; 4],
    /// Whether a name is due on the interface of each, just at its time.
    pub due: [bool; 2],
    /// If both are made for the name of one number: the words of its state on the two interfaces.
    pub states: Option<[&'static str; 2]>,
    /// For each that starts a name that has stopped: until when that is left alone.
    pub untils: [Option<u64>; 2],
}

/// A situation in the making.
pub struct Scene {
    pub maker: Maker,
    pub calls: Vec<Call>,
    /// The most names that a table has had.
    pub names: usize,
}

/// The random situation of a seed, the same for the same seed and wish.
pub fn situation(seed: u64, wish: Wish) -> Situation {
    let mut scene = Scene { maker: Maker::new(seed), calls: Vec::new(), names: 0 };
    scene.open();
    let focus = scene.focus();
    scene.history(&focus);
    scene.lend();
    let before = std::mem::take(&mut scene.calls);
    let aims = scene.aims(wish, &focus);
    let facts = scene.facts(&aims);
    let pair = aims.each_ref().map(|aim| scene.one_call(aim));
    let outcomes = [0, 1].map(|place| scene.call(pair[place].clone()));
    scene.calls.clear();
    scene.probe([facts.clock, aims[0].time], focus.interfaces.map(|interface| (interface, focus.name)));
    Situation { before, pair, after: scene.calls, outcomes, facts }
}

/// The interfaces and the name that a situation is about.
pub struct Focus {
    pub interfaces: [usize; 2],
    pub name: usize,
}

#[derive(Clone, Copy, PartialEq, Eq)]
enum Kind {
    Start,
    Tick,
    Datagram,
}

/// One of the two calls: its kind, and the interface and the name that it is made for. The interface's number in its
/// prefix may be another, above 3.
struct Aim {
    kind: Kind,
    interface: usize,
    number: u8,
    name: usize,
    time: u64,
}

impl Scene {
    /// Makes a call, and takes note of what it comes to.
    pub fn call(&mut self, call: Call) -> Outcome {
        let outcome = self.maker.session.call(&call);
        self.maker.memory.note(&call, &outcome);
        if let Outcome::Good { names } = outcome {
            self.names = self.names.max(names);
        }
        self.calls.push(call);
        outcome
    }

    pub fn random(&mut self) -> &mut Random {
        &mut self.maker.random
    }

    /// The two calls to be made, mostly for the name of one number.
    fn aims(&mut self, wish: Wish, focus: &Focus) -> [Aim; 2] {
        let [one, other] = focus.interfaces;
        let interfaces = [one, if wish == Wish::OneInterface { one } else { other }];
        let any = self.random().below(8);
        let names = [focus.name, if self.random().chance(7, 8) { focus.name } else { any }];
        let numbers = self.numbers(interfaces);
        let mut aims = [0, 1].map(|place| {
            let (interface, name) = (interfaces[place], names[place]);
            Aim { kind: self.kind(interface, name), interface, number: numbers[place], name, time: 0 }
        });
        aims[0].time = self.moment(&aims);
        let later = if wish == Wish::TwoTimes { self.random().pick(&[1, 1, 10, 100, 1000]) } else { 0 };
        aims[1].time = aims[0].time.saturating_add(later);
        aims
    }

    /// A kind of call, mostly one that the name's state lets pass.
    fn kind(&mut self, interface: usize, name: usize) -> Kind {
        let weights = match self.maker.memory.checks[interface][name.min(7)].state {
            State::Off | State::Stopped => [6, 1, 2],
            State::Verifying | State::Defending => [1, 4, 4],
            State::Unique | State::Shared => [1, 1, 4],
        };
        [Kind::Start, Kind::Tick, Kind::Datagram][self.random().weighted(&weights)]
    }

    fn facts(&self, aims: &[Aim; 2]) -> Facts {
        let memory = &self.maker.memory;
        let known = aims[0].name == aims[1].name && aims.iter().all(|aim| aim.number < 4);
        let state = |aim: &Aim| word(&memory.checks[aim.interface][aim.name.min(7)]);
        Facts {
            clock: memory.clock,
            table_good: memory.table_good,
            settings: memory.settings,
            due: aims.each_ref().map(|aim| self.dues().contains(&(aim.time, aim.interface))),
            states: known.then(|| aims.each_ref().map(state)),
            untils: aims.each_ref().map(|aim| self.until(aim)),
        }
    }

    /// Until when a name is left alone that has stopped and is to be started.
    fn until(&self, aim: &Aim) -> Option<u64> {
        self.maker.memory.until(aim.interface, aim.name).filter(|_| aim.kind == Kind::Start)
    }

    /// The time of the two calls: about a due time or the end of a wait, or that of the clock, and now and then one
    /// that is refused.
    fn moment(&mut self, aims: &[Aim; 2]) -> u64 {
        let on = |interface| aims.iter().filter(move |aim| aim.interface == interface);
        let is_ticked = |interface| on(interface).any(|aim| aim.kind == Kind::Tick);
        let mut dues = self.dues();
        dues.retain(|(_, interface)| on(*interface).count() > 0);
        if dues.iter().any(|(_, interface)| is_ticked(*interface)) {
            dues.retain(|(_, interface)| is_ticked(*interface));
        }
        let clock = self.maker.memory.clock;
        let ends: Vec<u64> = aims.iter().filter_map(|aim| self.until(aim)).collect();
        if !ends.is_empty() && self.random().chance(1, 2) {
            let end = self.random().pick(&ends);
            return self.maker.about(end.min(LAST_TIME), clock);
        }
        match self.random().below(32) {
            0 => draft::odd_time(self.random(), clock),
            1 => clock.saturating_sub(1),
            2..=4 => clock,
            5 => self.maker.soon(clock),
            _ if dues.is_empty() => self.maker.soon(clock),
            // All that waits there is due.
            6..=18 => dues.iter().fold(clock, |latest, (due, _)| latest.max(*due)),
            _ => {
                let (due, _) = self.random().pick(&dues);
                self.maker.about(due, clock)
            }
        }
    }

    /// The numbers of the two interfaces as they are handed over, some of them above 3; different ones stay so.
    fn numbers(&mut self, interfaces: [usize; 2]) -> [u8; 2] {
        let random = self.random();
        let mut numbers = interfaces.map(|interface| interface as u8);
        if numbers[0] == numbers[1] {
            return numbers;
        }
        let above = [4, 5, 8, 255];
        let place = random.below(above.len());
        match random.below(60) {
            0 => numbers[0] = above[place],
            1 => numbers[1] = above[place],
            2 => numbers = [above[place], above[(place + 1) % above.len()]],
            _ => {}
        }
        numbers
    }

    fn one_call(&mut self, aim: &Aim) -> Call {
        let mut prefix = self.maker.prefix(aim.interface, aim.time);
        if self.random().chance(1, 24) {
            prefix.room = draft::odd_room(self.random());
        }
        let call = match aim.kind {
            Kind::Start if self.random().chance(1, 30) => {
                Call::Start { prefix, name: self.random().pick(&[8, 9, 255]) }
            }
            Kind::Start => Call::Start { prefix, name: aim.name as u8 },
            Kind::Tick => Call::Tick { prefix },
            Kind::Datagram => self.one_datagram(aim.interface, aim.name),
        };
        let made = call.prefix().copied().unwrap_or(prefix);
        call.with_prefix(Prefix { interface: aim.number, time: aim.time, ..made })
    }

    /// A query, a notice or a response: mostly what the name's state lets pass.
    fn one_datagram(&mut self, interface: usize, name: usize) -> Call {
        let weights = match self.maker.memory.checks[interface][name.min(7)].state {
            State::Verifying => [2, 1, 6],
            State::Unique => [2, 6, 1],
            State::Defending => [2, 1, 5],
            State::Shared => [5, 1, 1],
            State::Off | State::Stopped => [3, 1, 1],
        };
        let draft = match self.random().weighted(&weights) {
            0 => self.maker.query_for(interface, name, false),
            1 => self.maker.query_for(interface, name, true),
            _ => self.maker.response_for(interface, name),
        };
        self.maker.spoilt(draft)
    }
}

/// The state of a name, and while it is being verified how often it was asked for.
fn word(check: &Check) -> &'static str {
    match (check.state, check.sends) {
        (State::Off, _) => "off",
        (State::Verifying, 1) => "sent-1",
        (State::Verifying, 2) => "sent-2",
        (State::Verifying, _) => "sent-3",
        (State::Unique, _) => "unique",
        (State::Defending, _) => "defending",
        (State::Stopped, _) => "stopped",
        (State::Shared, _) => "shared",
    }
}

#[cfg(test)]
mod tests {
    use super::*;

    const WISHES: [Wish; 3] = [Wish::TwoInterfaces, Wish::OneInterface, Wish::TwoTimes];

    #[test]
    fn the_same_seed_makes_the_same_situation() {
        for wish in WISHES {
            let calls = |seed| {
                let made = situation(seed, wish);
                [made.before, made.pair.to_vec(), made.after].concat()
            };
            assert!((0..20).all(|seed| calls(seed) == calls(seed) && calls(seed) != calls(seed + 1)));
        }
    }

    #[test]
    fn the_two_calls_are_as_wished() {
        for (seed, wish) in (0..500).flat_map(|seed| WISHES.map(|wish| (seed, wish))) {
            let made = situation(seed, wish);
            assert!(matches!(made.before[..], [Call::Table(_), Call::SetUp { .. }, ..]));
            let prefixes = made.pair.each_ref().map(|call| call.prefix().copied());
            let [Some(one), Some(other)] = prefixes else { panic!("a call without a prefix") };
            assert_eq!(one.interface == other.interface, wish == Wish::OneInterface);
            assert!(one.time == other.time || wish == Wish::TwoTimes && one.time < other.time);
        }
    }
}
