//! Random lists of starts and ticks for the hosts of a link, which keep the rules for a link or break one on
//! purpose.

use super::host::{State, LATEST};
use super::link::{Entry, Link, What};
use super::plan::{random_plan, shuffle, up_to, Planned, Wish};
use super::premise::Premise;
use crate::lines::Outcome;
use crate::random::Random;

/// No list comes near this many entries.
const MOST_ENTRIES: usize = 2000;

/// A list while it is made: an entry is taken by the link, and what comes of it decides which entries may follow.
struct List<'a> {
    link: &'a mut Link,
    random: &'a mut Random,
    planned: Vec<Planned>,
    /// Hosts to be started one after another, the next one last, and the longest wait before each.
    waiting: Vec<usize>,
    longest_wait: u64,
    /// When each host's next tick must come while it is checking.
    tick_at: Vec<u64>,
    now: u64,
    /// Which host's ticks may come late by how many intervals, and when the clock goes back by how much.
    late: Option<(usize, u64)>,
    back: Option<(u64, u64)>,
}

/// Sets the hosts up and takes a random list that ends with all started and none checking.
pub fn random_list(link: &mut Link, random: &mut Random, broken: Option<Premise>) -> Result<(), String> {
    let plan = random_plan(link, random, broken);
    for host in &mut link.hosts {
        let some = up_to(random, 2000);
        host.given.set_up.time = plan.first - random.pick(&[0, 0, some, plan.first]).min(plan.first);
    }
    link.set_up()?;
    let mut list = List::new(link, random, plan.first);
    if broken == Some(Premise::ClockNeverBack) {
        let by = 1 + up_to(list.random, plan.span);
        list.back = Some((plan.first + up_to(list.random, plan.last_start), by));
    }
    (list.planned, list.late) = (plan.planned, plan.late);
    list.run()
}

/// Sets the hosts up again and takes a list that starts `first`, and each other host once the one before is not
/// checking any more.
pub fn serial_list(link: &mut Link, random: &mut Random, first: usize) -> Result<(), String> {
    link.set_up()?;
    let earliest = link.hosts.iter().map(|host| host.given.set_up.time).max().unwrap_or(0);
    let whole = 3 * link.hosts.iter().map(|host| host.given.interval()).sum::<u64>();
    let spare = LATEST.saturating_sub(earliest + whole);
    let some = up_to(random, spare);
    let begin = earliest + random.pick(&[0, spare.min(1), some.min(5000), some]);
    let mut waiting: Vec<usize> = (0..link.hosts.len()).filter(|host| *host != first).collect();
    shuffle(random, &mut waiting);
    waiting.push(first);
    let longest_wait = LATEST.saturating_sub(begin + whole) / waiting.len() as u64;
    let mut list = List::new(link, random, begin);
    for _ in 0..list.random.below(2 * waiting.len() + 1) {
        let time = begin + up_to(list.random, whole);
        let extra = Planned::extra(list.random, time.min(LATEST), waiting.len());
        list.planned.push(extra);
    }
    (list.waiting, list.longest_wait) = (waiting, longest_wait.min(3000));
    list.run()
}

/// Sets the hosts up and takes a list with these starts, each a time and a host, and the ticks that they call for.
pub fn chosen_list(link: &mut Link, random: &mut Random, starts: &[(u64, usize)]) -> Result<(), String> {
    link.set_up()?;
    let mut list = List::new(link, random, 0);
    list.planned = starts.iter().map(|&(time, host)| Planned { time, host, wish: Wish::Start }).collect();
    list.run()
}

impl<'a> List<'a> {
    fn new(link: &'a mut Link, random: &'a mut Random, now: u64) -> List<'a> {
        let tick_at = vec![0; link.hosts.len()];
        List {
            link,
            random,
            planned: Vec::new(),
            waiting: Vec::new(),
            longest_wait: 0,
            tick_at,
            now,
            late: None,
            back: None,
        }
    }

    fn run(mut self) -> Result<(), String> {
        self.start_next();
        while let Some(now) = self.next_time() {
            self.now = now;
            for planned in self.entries_now() {
                self.take(&planned)?;
            }
            self.link.tell_copies(self.random, self.now)?;
            self.go_back();
            self.start_next();
            if self.link.steps.len() > MOST_ENTRIES {
                return Err("the list does not end".to_string());
            }
        }
        Ok(())
    }

    fn checking(&self, host: usize) -> bool {
        self.link.hosts[host].state == State::Checking
    }

    /// The clock does not pass the tick of a checking host.
    fn next_time(&self) -> Option<u64> {
        let ticks = (0..self.tick_at.len()).filter(|host| self.checking(*host)).map(|host| self.tick_at[host]);
        self.planned.iter().map(|planned| planned.time).chain(ticks).min()
    }

    /// All entries of this millisecond, in any order.
    fn entries_now(&mut self) -> Vec<Planned> {
        let now = self.now;
        let (mut entries, later) = self.planned.drain(..).partition(|planned| planned.time <= now);
        self.planned = later;
        for host in 0..self.tick_at.len() {
            if self.checking(host) && self.tick_at[host] <= now {
                entries.push(Planned { time: now, host, wish: Wish::Tick });
            }
        }
        shuffle(self.random, &mut entries);
        entries
    }

    fn take(&mut self, planned: &Planned) -> Result<(), String> {
        let place = planned.host;
        let Some((interface, what)) = self.call_for(planned) else { return Ok(()) };
        self.link.take(self.random, Entry { time: self.now, host: place, interface, what })?;
        let host = &self.link.hosts[place];
        match self.link.steps.last().map(|step| &step.outcome) {
            Some(Outcome::Query { .. }) => {
                let late = self.late.filter(|(late, _)| *late == place && self.random.chance(1, 3));
                let most = late.map_or(0, |(_, intervals)| intervals * host.given.interval() - 1);
                self.tick_at[place] = host.due + up_to(self.random, most);
            }
            // A start that came too early by the host's own clock is tried again.
            Some(Outcome::Refused { no: 4, .. }) if planned.wish == Wish::Start => {
                self.planned.push(Planned { time: host.clock.max(self.now + 1), ..*planned });
            }
            _ => {}
        }
        Ok(())
    }

    /// The interface and call of a planned entry, if the rules allow it now: no host has a second accepted start.
    fn call_for(&mut self, planned: &Planned) -> Option<(u8, What)> {
        let host = &self.link.hosts[planned.host];
        let given = &host.given;
        Some(match (planned.wish, host.state) {
            (Wish::Start, State::Off) | (Wish::StartAgain, State::Checking | State::Holding) => {
                (given.used, What::Start(given.number))
            }
            (Wish::Start | Wish::StartAgain, _) => return None,
            (Wish::StartOfNoName, _) => {
                (given.used, What::Start(self.random.between(usize::from(given.names), 255) as u8))
            }
            (Wish::StartElsewhere, _) => {
                (elsewhere(self.random, given.used), What::Start(self.random.below(usize::from(given.names)) as u8))
            }
            (Wish::Tick, _) => (given.used, What::Tick),
            (Wish::TickElsewhere, _) => (elsewhere(self.random, given.used), What::Tick),
        })
    }

    /// Plans the next of the waiting hosts, if none is checking and no start is planned.
    fn start_next(&mut self) {
        let checking = (0..self.tick_at.len()).any(|host| self.checking(host));
        if checking || self.planned.iter().any(|planned| planned.wish == Wish::Start) {
            return;
        }
        if let Some(host) = self.waiting.pop() {
            let some = up_to(self.random, self.longest_wait);
            let time = self.now + self.random.pick(&[0, 1, some]).min(self.longest_wait);
            self.planned.push(Planned { time, host, wish: Wish::Start });
        }
    }

    fn go_back(&mut self) {
        if let Some((at, by)) = self.back.filter(|(at, _)| self.now >= *at) {
            self.planned.iter_mut().for_each(|planned| planned.time -= by.min(at));
            self.back = None;
        }
    }
}

/// The number of an interface that is not used, or of none.
fn elsewhere(random: &mut Random, used: u8) -> u8 {
    let numbers = [0, 1, 2, 3, 4, 255];
    loop {
        let number = random.pick(&numbers);
        if number != used {
            return number;
        }
    }
}
