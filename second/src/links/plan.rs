//! The times of the starts of a random list, and the further entries that are strewn in between.

use super::host::LATEST;
use super::link::Link;
use super::premise::Premise;
use crate::random::Random;

/// What an entry is meant to be. All but the first and `Tick` are refused; a tick may be quiet.
#[derive(Clone, Copy, PartialEq, Eq, Debug)]
pub enum Wish {
    Start,
    /// Of a name that is checking or held already.
    StartAgain,
    /// With a number that the table does not have.
    StartOfNoName,
    /// On an interface that is not used.
    StartElsewhere,
    Tick,
    TickElsewhere,
}

#[derive(Clone, Copy, Debug)]
pub struct Planned {
    pub time: u64,
    pub host: usize,
    pub wish: Wish,
}

impl Planned {
    /// An entry of any host that is no first start.
    pub fn extra(random: &mut Random, time: u64, hosts: usize) -> Planned {
        let wishes = [Wish::StartAgain, Wish::StartOfNoName, Wish::StartElsewhere, Wish::Tick, Wish::TickElsewhere];
        Planned { time, host: random.below(hosts), wish: wishes[random.weighted(&[2, 1, 1, 6, 1])] }
    }
}

pub struct Plan {
    /// No entry is earlier than this, and none later than this and the span.
    pub first: u64,
    pub span: u64,
    /// The latest start, counted from the first time.
    pub last_start: u64,
    /// Which host's ticks may come late, by less than how many intervals.
    pub late: Option<(usize, u64)>,
    pub planned: Vec<Planned>,
}

/// Starts of all hosts, and extra entries near the times that matter.
pub fn random_plan(link: &Link, random: &mut Random, broken: Option<Premise>) -> Plan {
    let intervals: Vec<u64> = link.hosts.iter().map(|host| host.given.interval()).collect();
    let longest = intervals.iter().max().copied().unwrap_or(0);
    // Without one of these two premises it is a late start that makes the claim fail.
    let apart = matches!(broken, Some(Premise::OneInterval | Premise::TickWhenDue)) && random.chance(3, 4);
    let common = if apart { LATE_START } else { random.below(7) };
    let mut starts = starts(random, &intervals, longest, common);
    let late =
        Some((random.below(starts.len()), random.pick(&[1, 8]))).filter(|_| broken == Some(Premise::TickWhenDue));
    if let Some((host, _)) = late {
        starts[host] = 0;
    }
    let last_start = starts.iter().max().copied().unwrap_or(0);
    // A host leaves Verifying by its third served timer.
    let span = last_start + 3 * longest;
    let first = first_time(random, span, broken);
    let start = |(host, offset): (usize, &u64)| Planned { time: first + offset, host, wish: Wish::Start };
    let mut planned: Vec<Planned> = starts.iter().enumerate().map(start).collect();
    let extras =
        if random.chance(1, if broken.is_some() { 2 } else { 4 }) { 0 } else { random.below(4 * starts.len()) };
    for _ in 0..extras {
        let offset = extra_offset(random, &starts, &intervals, span);
        planned.push(Planned::extra(random, first + offset, starts.len()));
    }
    Plan { first, span, last_start, late, planned }
}

/// The way of `starts` that spreads them over the time of a check and somewhat more.
const LATE_START: usize = 4;

/// When each host starts: at once, close together, at distances that make ties with ticks, or far apart.
fn starts(random: &mut Random, intervals: &[u64], longest: u64, common: usize) -> Vec<u64> {
    let mut starts = Vec::new();
    for (place, interval) in intervals.iter().enumerate() {
        let way = if common == 6 { random.below(6) } else { common };
        starts.push(match way {
            0 => 0,
            1 => up_to(random, 5),
            2 => interval * up_to(random, 3),
            3 => (interval * up_to(random, 3) + up_to(random, 2)).saturating_sub(1),
            LATE_START => up_to(random, 4 * longest),
            _ => place as u64 * (3 * interval + random.pick(&[0, 0, 1, 20])),
        });
    }
    shuffle(random, &mut starts);
    starts
}

/// Near a time at which a host is due, or at any time.
fn extra_offset(random: &mut Random, starts: &[u64], intervals: &[u64], span: u64) -> u64 {
    let host = random.below(starts.len());
    let offset = match random.below(3) {
        0 => up_to(random, span),
        _ => (starts[host] + intervals[host] * up_to(random, 3) + up_to(random, 2)).saturating_sub(1),
    };
    offset.min(span)
}

/// At the clock's beginning, at its end, or anywhere; without a premise, some way from both.
fn first_time(random: &mut Random, span: u64, broken: Option<Premise>) -> u64 {
    let most = LATEST - span;
    let anywhere = up_to(random, most);
    match (random.below(4), broken) {
        (_, Some(_)) => 1_000_000 + anywhere / 2,
        (0, _) => 0,
        (1, _) => up_to(random, 5000),
        (2, _) => most,
        _ => anywhere,
    }
}

/// A number from 0 to `most`.
pub fn up_to(random: &mut Random, most: u64) -> u64 {
    random.word() % (most + 1)
}

pub fn shuffle<T>(random: &mut Random, items: &mut [T]) {
    for place in (1..items.len()).rev() {
        items.swap(place, random.below(place + 1));
    }
}
