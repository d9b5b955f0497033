//! Calls that show the whole state of a host: its clock, what each name is on each interface, the ID, type and class
//! that its check waits for, how often it was asked for, when it is due, and until when a stopped one is left alone.

use super::addresses::group;
use super::draft::{Draft, RESPONSE, TENTATIVE};
use super::host::WAITING;
use super::memory::{Memory, State, LAST_TIME};
use super::situations::Scene;
use super::{names, tables};
use crate::calls::{Address, Call, Prefix};
use crate::message::{ANY, CLASS_IN};

/// Names that wait are due at no more times than this, but for hosts with very many of them.
const MOST_TIMES: usize = 24;

/// The name that the probes' table has at a number; it has none at 8.
fn name(number: usize) -> Vec<u8> {
    names::join(&[vec![b'a' + number as u8]])
}

impl Scene {
    /// Shows the state. The clock is looked for at the given times and just before them; the starts come last.
    ///
    /// States go by the number of a name, so a table of eight short names serves for all. They are shared, so that
    /// nothing waits after a start.
    pub fn probe(&mut self, times: [u64; 2], starts: [(usize, usize); 2]) {
        self.call(Call::Table((0..8).flat_map(|number| tables::entry(2, &name(number))).collect()));
        let used = Memory::used(&self.maker.memory.settings);
        for interface in (0..4).filter(|interface| !used.contains(interface)) {
            self.tick_at(interface, self.maker.memory.clock);
        }
        if used.is_empty() {
            return;
        }
        self.show_clock(times, &used);
        self.show_states(&used);
        self.show_checks();
        self.show_waits();
        self.show_timers();
        // Nothing else waits.
        let later = (self.maker.memory.clock + 1000).min(LAST_TIME);
        for interface in used {
            self.tick_at(interface, later);
        }
        for (interface, name) in starts {
            self.start_at(interface, name, self.maker.memory.clock);
        }
    }

    fn plain(&self, interface: usize, time: u64) -> Prefix {
        Prefix { interface: interface as u8, time, id: 0xe000 + self.calls.len() as u16, room: 512 }
    }

    fn tick_at(&mut self, interface: usize, time: u64) {
        let prefix = self.plain(interface, time);
        self.call(Call::Tick { prefix });
    }

    fn start_at(&mut self, interface: usize, name: usize, time: u64) {
        let prefix = self.plain(interface, time);
        self.call(Call::Start { prefix, name: name as u8 });
    }

    /// A query for the name of a number, from the highest address of the family.
    fn message(&mut self, interface: usize, number: usize, time: u64) -> Draft {
        let prefix = self.plain(interface, time);
        let family = self.maker.memory.settings[interface].address.family;
        Draft {
            prefix,
            source: Address { family, octets: [255; 16] },
            port: 5355,
            destination: group(&mut self.maker.random, family),
            id: prefix.id,
            flags: 0,
            counts: [1, 0, 0, 0],
            name: name(number),
            qtype: ANY,
            class: CLASS_IN,
            after: Vec::new(),
            length: None,
        }
    }

    fn send(&mut self, draft: &Draft) {
        self.call(draft.call(draft.octets()));
    }

    /// A query for a name that the table has not is refused with 4 before the clock, else with 12: it changes nothing.
    fn show_clock(&mut self, times: [u64; 2], used: &[usize]) {
        let mut about: Vec<u64> = times.iter().flat_map(|time| [time.saturating_sub(1), *time]).collect();
        about.sort();
        about.dedup();
        for time in about {
            let interface = self.maker.random.pick(used);
            let query = self.message(interface, 8, time);
            self.send(&query);
        }
    }

    /// At the clock's time a query changes nothing either.
    fn show_states(&mut self, used: &[usize]) {
        for interface in used {
            for number in 0..self.names {
                let query = self.message(*interface, number, self.maker.memory.clock);
                self.send(&query);
            }
        }
    }

    /// A response with T set from the highest address leaves its name as it was, and one from our own is refused.
    fn show_checks(&mut self) {
        let waiting = self.maker.memory.names_in(&WAITING);
        for (interface, number) in &waiting {
            let response = self.response(*interface, *number);
            self.send(&response);
        }
        if let Some((interface, number)) = waiting.last() {
            let mut response = self.response(*interface, *number);
            let family = response.source.family;
            let ours = self.maker.memory.settings.map(|setting| setting.address);
            let ours: Vec<Address> = ours.into_iter().filter(|address| address.family == family).collect();
            response.source = self.maker.random.pick(&ours);
            self.send(&response);
        }
    }

    fn response(&mut self, interface: usize, number: usize) -> Draft {
        let check = self.maker.memory.checks[interface][number];
        let mut draft = self.message(interface, number, self.maker.memory.clock);
        draft.destination = self.maker.memory.settings[interface].address;
        draft.flags = RESPONSE | TENTATIVE;
        (draft.id, draft.qtype, draft.class) = (check.id, check.qtype, check.class);
        draft
    }

    /// A start just before the end of a stopped name's wait is refused; the last time is before it too.
    fn show_waits(&mut self) {
        for (until, interface, number) in self.waits() {
            if until > self.maker.memory.clock {
                self.start_at(interface, number, (until - 1).min(LAST_TIME));
            }
        }
    }

    /// Ticks at each due time until no name waits, and just before it for the names that wait at first; between them
    /// and after them starts of stopped names at the ends of their waits.
    fn show_timers(&mut self) {
        let first = self.dues();
        for _ in 0..MOST_TIMES {
            let Some((due, _)) = self.dues().into_iter().min() else { break };
            self.start_again(due.max(self.maker.memory.clock + 1));
            let clock = self.maker.memory.clock;
            for interface in (0..4).filter(|interface| due > clock && first.contains(&(due, *interface))) {
                self.tick_at(interface, due - 1);
            }
            for (_, interface) in self.dues().into_iter().filter(|(other, _)| *other <= due) {
                self.tick_at(interface, due.max(clock));
            }
        }
        self.start_again(LAST_TIME + 1);
    }

    /// Starts each stopped name whose wait ends before the given time.
    fn start_again(&mut self, before: u64) {
        for (until, interface, number) in self.waits().into_iter().filter(|(until, _, _)| *until < before) {
            self.start_at(interface, number, until.max(self.maker.memory.clock));
        }
    }

    /// The end of its wait, the interface and the number of each name that has stopped, the earliest first.
    fn waits(&self) -> Vec<(u64, usize, usize)> {
        let memory = &self.maker.memory;
        let stopped = memory.names_in(&[State::Stopped]).into_iter();
        let mut waits: Vec<(u64, usize, usize)> =
            stopped.map(|(interface, number)| (memory.checks[interface][number].until, interface, number)).collect();
        waits.sort();
        waits
    }

    /// Due time and interface of each name that waits and can be served.
    pub fn dues(&self) -> Vec<(u64, usize)> {
        let memory = &self.maker.memory;
        let waiting = memory.names_in(&WAITING).into_iter();
        let dues = waiting.map(|(interface, number)| (memory.checks[interface][number].due, interface));
        dues.filter(|(due, _)| *due <= LAST_TIME).collect()
    }
}

#[cfg(test)]
mod tests {
    use super::*;
    use crate::faults;
    use crate::lines::Outcome;
    use crate::make::situations::{situation, Situation, Wish};
    use crate::message::{Message, HEADER};
    use crate::names::read_with_pointers;
    use crate::session::Session;

    /// What the probes of a situation show after some of its two calls.
    fn shown(made: &Situation, pair: &[Call]) -> Vec<Outcome> {
        let mut session = Session::new(faults::NONE);
        made.before.iter().chain(pair).for_each(|call| drop(session.call(call)));
        made.after.iter().map(|call| session.call(call)).collect()
    }

    /// Whether the probes show that the call of this place was made.
    fn is_shown(made: &Situation, place: usize) -> bool {
        shown(made, &made.pair) != shown(made, &made.pair[1 - place..][..1])
    }

    #[test]
    fn the_id_that_a_call_leaves_is_shown() {
        let mut ids = 0;
        for seed in 0..1000 {
            let made = situation(seed, Wish::TwoInterfaces);
            for place in 0..2 {
                let (call, outcome) = (&made.pair[place], &made.outcomes[place]);
                let Some(prefix) = call.prefix().filter(|_| matches!(outcome, Outcome::Query { .. })) else { continue };
                let mut pair = made.pair.clone();
                pair[place] = call.with_prefix(Prefix { id: prefix.id ^ 1, ..*prefix });
                let differs = shown(&made, &made.pair) != shown(&made, &pair);
                assert_eq!(differs, !matches!(call, Call::Tick { .. }), "seed {seed}");
                ids += usize::from(differs);
            }
        }
        assert!(ids > 150, "{ids}");
    }

    /// The datagram with so much added to the TTL of its first answer record, if it has one whose top bit is clear.
    fn with_ttl(call: &Call, added: i64) -> Option<Call> {
        let mut call = call.clone();
        let Call::Datagram { octets, .. } = &mut call else { return None };
        let Message { question, answers, .. } = Message::decode(octets, faults::NONE);
        let ttl = i64::from(answers.first()?.ttl) + added;
        let owner = read_with_pointers(octets, HEADER + question?.length(), faults::NONE)?;
        let octets = &mut octets[owner.next + 4..owner.next + 8];
        octets.copy_from_slice(&u32::try_from(ttl).ok().filter(|ttl| *ttl < 1 << 31)?.to_be_bytes());
        Some(call)
    }

    #[test]
    fn the_end_of_a_wait_is_shown() {
        let mut ends = 0;
        for seed in 0..2000 {
            let made = situation(seed, Wish::TwoInterfaces);
            // A wait that ends after the last time does not show; none is as long as 2^41 ms.
            let late = made.facts.clock > LAST_TIME - (1 << 41);
            let stopped = |place: &usize| matches!(made.outcomes[*place], Outcome::Stopped { .. });
            for (place, added) in (0..2).filter(stopped).flat_map(|place| [(place, -1), (place, 1)]) {
                let Some(call) = with_ttl(&made.pair[place], added).filter(|_| !late) else { continue };
                let mut pair = made.pair.clone();
                pair[place] = call;
                assert_ne!(shown(&made, &made.pair), shown(&made, &pair), "seed {seed}");
                ends += 1;
            }
        }
        assert!(ends > 30, "{ends}");
    }

    #[test]
    fn what_a_call_changes_is_shown() {
        let (mut changes, mut clocks) = (0, 0);
        for seed in 0..1000 {
            let made = situation(seed, Wish::TwoInterfaces);
            let refused = |place: usize| matches!(made.outcomes[place], Outcome::Refused { .. });
            // A name that is due after the last time is never served, so its sends do not show.
            let late = made.facts.clock > LAST_TIME - 10_000;
            let later = made.pair[0].prefix().is_some_and(|prefix| prefix.time > made.facts.clock);
            for place in 0..2 {
                match made.outcomes[place] {
                    Outcome::Refused { .. } => assert!(!is_shown(&made, place), "seed {seed}"),
                    Outcome::Quiet | Outcome::Reply { .. } | Outcome::Kept { .. } => {
                        let clock = later && refused(1 - place);
                        assert_eq!(is_shown(&made, place), clock, "seed {seed}");
                        clocks += usize::from(clock);
                    }
                    _ => {
                        assert!(is_shown(&made, place) || late, "seed {seed}");
                        changes += 1;
                    }
                }
            }
        }
        assert!(changes > 300 && clocks > 50, "{changes} {clocks}");
    }
}
