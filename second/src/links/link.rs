//! Several hosts on one link: a start or tick of one of them, and the delivery of all that is sent because of it.

use super::given::ignored_octets;
use super::host::{group, start_query, tentative, used_octets, Given, Host, State, LEAST_ROOM};
use crate::calls::{Address, Call, Prefix};
use crate::lines::{Endpoint, Outcome};
use crate::random::Random;

#[derive(Clone, Copy, PartialEq, Eq, Debug)]
pub enum What {
    /// With the name's number.
    Start(u8),
    Tick,
}

/// One entry of a list.
#[derive(Clone, Copy, Debug)]
pub struct Entry {
    pub time: u64,
    pub host: usize,
    pub interface: u8,
    pub what: What,
}

/// A query's or reply's arrival at a host, and what its receive gave.
#[derive(Clone, Debug)]
pub struct Arrival {
    pub from: usize,
    pub to: usize,
    pub reply: bool,
    pub tentative: bool,
    pub outcome: Outcome,
}

/// An entry of a list with all that came of it.
#[derive(Clone, Debug)]
pub struct Step {
    pub entry: Entry,
    /// When the host was due, if it was checking before the call.
    pub due: Option<u64>,
    pub outcome: Outcome,
    pub arrivals: Vec<Arrival>,
}

/// A datagram on its way.
struct Sent {
    from: usize,
    to: usize,
    reply: bool,
    destination: Endpoint,
    octets: Vec<u8>,
}

pub struct Link {
    pub hosts: Vec<Host>,
    /// The steps since the last set-up.
    pub steps: Vec<Step>,
}

impl Link {
    pub fn new(given: Vec<Given>) -> Link {
        Link { hosts: given.into_iter().map(Host::new).collect(), steps: Vec::new() }
    }

    /// Sets all hosts up, so that a new list can begin.
    pub fn set_up(&mut self) -> Result<(), String> {
        self.steps.clear();
        for host in &mut self.hosts {
            let outcome = host.set_up();
            if outcome != Outcome::Ready {
                return Err(format!("a set-up that must be accepted gives {outcome:?}"));
            }
        }
        Ok(())
    }

    /// Makes the call of one entry and delivers what is sent, all at the entry's time.
    pub fn take(&mut self, random: &mut Random, entry: Entry) -> Result<(), String> {
        let prefix = any_prefix(random, entry.interface, entry.time);
        let call = match entry.what {
            What::Start(name) => Call::Start { prefix, name },
            What::Tick => Call::Tick { prefix },
        };
        let host = &mut self.hosts[entry.host];
        let due = Some(host.due).filter(|_| host.state == State::Checking);
        let outcome = host.call(call);
        let mut arrivals = Vec::new();
        if let Outcome::Query { to, octets, .. } = &outcome {
            arrivals = self.deliver(random, entry, *to, octets)?;
        }
        self.steps.push(Step { entry, due, outcome, arrivals });
        Ok(())
    }

    /// The query goes to every other host and each reply to the asker; whatever is on its way may arrive next.
    fn deliver(
        &mut self,
        random: &mut Random,
        entry: Entry,
        to: Endpoint,
        octets: &[u8],
    ) -> Result<Vec<Arrival>, String> {
        let asker = entry.host;
        let query = |other| Sent { from: asker, to: other, reply: false, destination: to, octets: octets.to_vec() };
        let mut on_way: Vec<Sent> = (0..self.hosts.len()).filter(|other| *other != asker).map(query).collect();
        let mut arrivals = Vec::new();
        while !on_way.is_empty() {
            let sent = on_way.swap_remove(random.below(on_way.len()));
            let source = Endpoint { address: self.source(random, sent.from), port: any_port(random) };
            let outcome = self.receive(random, &sent, source, entry.time);
            match (&outcome, sent.reply) {
                (Outcome::Reply { to, octets }, false) if *to == source => on_way.push(Sent {
                    from: sent.to,
                    to: asker,
                    reply: true,
                    destination: *to,
                    octets: octets.clone(),
                }),
                (Outcome::Kept { .. } | Outcome::Stopped { .. }, true) | (Outcome::Refused { .. }, _) => {}
                _ => return Err(format!("host {} gives {outcome:?}, which no rule allows here", sent.to)),
            }
            let (reply, tentative) = (sent.reply, tentative(&sent.octets));
            arrivals.push(Arrival { from: sent.from, to: sent.to, reply, tentative, outcome });
        }
        Ok(arrivals)
    }

    fn receive(&mut self, random: &mut Random, sent: &Sent, source: Endpoint, time: u64) -> Outcome {
        let receiver = &mut self.hosts[sent.to];
        receiver.call(Call::Datagram {
            prefix: any_prefix(random, receiver.given.used, time),
            source: source.address,
            port: source.port,
            destination: ignored_octets(random, sent.destination.address),
            octets: sent.octets.clone(),
        })
    }

    /// A host's address as it stands on what it sends.
    fn source(&self, random: &mut Random, host: usize) -> Address {
        ignored_octets(random, self.hosts[host].given.address())
    }

    /// The state of each host at the end of a list, told at `time`.
    pub fn tell(&mut self, random: &mut Random, time: u64) -> Result<Vec<State>, String> {
        let mut states = Vec::new();
        for place in 0..self.hosts.len() {
            let call = self.telling_call(random, place, time);
            let told = self.hosts[place].tell(call);
            states.push(self.same_state(place, told)?);
        }
        Ok(states)
    }

    /// Within a list, copies of the hosts must tell the states that the outcomes so far tell.
    pub fn tell_copies(&self, random: &mut Random, time: u64) -> Result<(), String> {
        for (place, host) in self.hosts.iter().enumerate() {
            let call = self.telling_call(random, place, time.max(host.clock));
            self.same_state(place, host.copy_tells(&call))?;
        }
        Ok(())
    }

    fn same_state(&self, place: usize, told: Option<State>) -> Result<State, String> {
        let state = self.hosts[place].state;
        match told {
            Some(told) if told == state => Ok(told),
            _ => Err(format!("host {place} is {state:?} by its outcomes, but tells {told:?}")),
        }
    }

    /// A start's query for the name, as any host writes it and from any address of the family.
    fn telling_call(&self, random: &mut Random, place: usize, time: u64) -> Call {
        let mut source = self.source(random, place);
        if random.chance(2, 3) {
            let width = used_octets(&source).len();
            source.octets[random.below(width)] = random.octet();
        }
        let prefix = any_prefix(random, self.hosts[place].given.used, time);
        let octets = start_query(prefix.id, &self.hosts[random.below(self.hosts.len())].given.name);
        Call::Datagram { prefix, source, port: any_port(random), destination: group(source.family), octets }
    }
}

/// Any ID, often one that other calls have too.
fn any_prefix(random: &mut Random, interface: u8, time: u64) -> Prefix {
    let id = if random.chance(1, 3) { random.below(2) as u16 } else { random.word() as u16 };
    let room = random.pick(&[LEAST_ROOM, LEAST_ROOM, LEAST_ROOM + 1, 1500, 65_536, u32::MAX]);
    Prefix { interface, time, id, room }
}

fn any_port(random: &mut Random) -> u16 {
    if random.chance(1, 2) {
        5355
    } else {
        random.word() as u16
    }
}

#[cfg(test)]
mod tests {
    use super::{Entry, Link, What};
    use crate::links::host::State;
    use crate::links::timeline::given;
    use crate::random::Random;

    /// Host 0 asks at 0, 100 and 200; host 1, with the lower address, starts in that last millisecond and asks for the
    /// third time at 400. Host 0's last tick, due at 300, comes at `late`, in a tie after host 1's.
    fn states_with_last_tick_at(late: u64) -> Result<Vec<State>, String> {
        let (mut link, mut random) = (Link::new(vec![given(20), given(10)]), Random::new(0));
        link.set_up()?;
        let (start, tick) = (What::Start(0), What::Tick);
        let mut list = vec![(0, 0, start), (100, 0, tick), (200, 0, tick), (200, 1, start), (300, 1, tick)];
        list.extend([(400, 1, tick), (late, 0, tick), (500, 1, tick)]);
        list.sort_by_key(|(time, _, _)| *time);
        for (time, host, what) in list {
            link.take(&mut random, Entry { time, host, interface: 0, what })?;
        }
        link.tell(&mut random, 500)
    }

    #[test]
    fn a_tick_may_be_late_by_less_than_an_interval() {
        assert_eq!(states_with_last_tick_at(300), Ok(vec![State::Holding, State::Stopped]));
        assert_eq!(states_with_last_tick_at(399), Ok(vec![State::Holding, State::Stopped]));
        assert_eq!(states_with_last_tick_at(400), Ok(vec![State::Holding, State::Holding]));
    }
}
