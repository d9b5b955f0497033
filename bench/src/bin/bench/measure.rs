//! Measuring: the implementations take turns, round by round, so that a disturbance meets all of them alike.

use crate::cases::Case;
use crate::seen::Run;
use crate::{plain_runs, plain_stacks, proved_runs};
use std::time::Duration;

pub const ROUNDS: usize = 201;
/// How long the calls of one round take, about.
const ROUND: Duration = Duration::from_micros(100);

pub struct Implementation {
    pub key: &'static str,
    pub title: &'static str,
    /// Makes the case's call so many times.
    pub run: fn(&Case, u32) -> Run,
    /// Octets of stack that the call uses.
    pub stack: fn(&Case) -> Option<usize>,
}

pub const IMPLEMENTATIONS: [Implementation; 4] = [
    Implementation { key: "proved", title: "proved, from C", run: proved_runs::run, stack: proved_runs::stack },
    Implementation { key: "value", title: "plain, by value", run: plain_runs::by_value, stack: plain_stacks::by_value },
    Implementation {
        key: "c",
        title: "plain, C by value",
        run: plain_runs::c_by_value,
        stack: plain_stacks::c_by_value,
    },
    Implementation { key: "mut", title: "plain, &mut", run: plain_runs::by_mut, stack: plain_stacks::by_mut },
];

/// Nanoseconds of a call.
#[derive(Clone, Copy)]
pub struct Time {
    pub median: f64,
    pub least: f64,
}

/// The time of a case's call with each implementation; an error if in some round they do not give the same.
pub fn measure(case: &Case) -> Result<[Time; IMPLEMENTATIONS.len()], String> {
    let calls = calls_of_a_round(case);
    let mut times = [const { Vec::new() }; IMPLEMENTATIONS.len()];
    for round in 0..ROUNDS {
        let mut first = None;
        for turn in 0..IMPLEMENTATIONS.len() {
            let number = (round + turn) % IMPLEMENTATIONS.len();
            let Run { time, seen } = (IMPLEMENTATIONS[number].run)(case, calls);
            times[number].push(time.as_nanos() as f64 / f64::from(calls));
            let want = first.get_or_insert_with(|| seen.clone());
            if seen != *want {
                return Err(format!("{}: {} gives {seen:?}, and not {want:?}", case.key, IMPLEMENTATIONS[number].key));
            }
        }
    }
    Ok(times.map(summary))
}

fn summary(mut times: Vec<f64>) -> Time {
    times.sort_by(f64::total_cmp);
    Time { median: times[times.len() / 2], least: times[0] }
}

/// So many calls that the slowest implementation needs about the time of a round.
fn calls_of_a_round(case: &Case) -> u32 {
    let slowest = IMPLEMENTATIONS.iter().map(|one| (one.run)(case, 2_000).time).max().unwrap_or(ROUND);
    (ROUND.as_nanos() * 2_000 / slowest.as_nanos().max(1)).clamp(1, 100_000) as u32
}
