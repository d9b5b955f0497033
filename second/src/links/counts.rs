//! What is counted over many runs.

use super::link::{Step, What};
use super::run::Run;
use crate::lines::Outcome;
use std::ops::AddAssign;

#[derive(Clone, Copy, Default, Debug)]
pub struct Counts {
    pub runs: usize,
    pub hosts: usize,
    pub most_hosts: usize,
    pub calls: usize,
    pub entries: usize,
    pub refused: usize,
    pub quiet: usize,
    /// Runs in which two hosts asked or became unique in one millisecond, and those in which two started.
    pub ties: usize,
    pub start_ties: usize,
    /// Why a host stopped, and how often a response left a host as it was.
    pub stopped_by_clear: usize,
    pub stopped_by_lower: usize,
    pub kept: usize,
    /// How often each refusal number was given by any call.
    pub refusals: [usize; 21],
}

impl Counts {
    pub fn of(run: &Run) -> Counts {
        let hosts = run.link.hosts.len();
        let calls = run.link.hosts.iter().map(|host| host.calls.len()).sum();
        let (ties, start_ties) = (usize::from(tie(&run.steps, false)), usize::from(tie(&run.steps, true)));
        let mut counts = Counts { runs: 1, hosts, most_hosts: hosts, calls, ties, start_ties, ..Counts::default() };
        for step in &run.steps {
            counts.entries += 1;
            counts.refused += usize::from(matches!(step.outcome, Outcome::Refused { .. }));
            counts.quiet += usize::from(step.outcome == Outcome::Quiet);
            for arrival in &step.arrivals {
                match (&arrival.outcome, arrival.tentative) {
                    (Outcome::Stopped { .. }, false) => counts.stopped_by_clear += 1,
                    (Outcome::Stopped { .. }, true) => counts.stopped_by_lower += 1,
                    (Outcome::Kept { .. }, _) => counts.kept += 1,
                    _ => {}
                }
            }
        }
        for outcome in run.link.hosts.iter().flat_map(|host| &host.outcomes) {
            if let Outcome::Refused { no, .. } = outcome {
                counts.refusals[usize::from(*no)] += 1;
            }
        }
        counts
    }
}

/// Whether entries of two hosts in one millisecond both did something; `starts` looks at starts alone.
fn tie(steps: &[Step], starts: bool) -> bool {
    let counts = |step: &&Step| {
        matches!(step.outcome, Outcome::Query { .. } | Outcome::Unique { .. })
            && !(starts && step.entry.what == What::Tick)
    };
    let done: Vec<&Step> = steps.iter().filter(counts).collect();
    done.windows(2).any(|pair| pair[0].entry.time == pair[1].entry.time)
}

impl AddAssign for Counts {
    fn add_assign(&mut self, other: Counts) {
        self.runs += other.runs;
        self.hosts += other.hosts;
        self.most_hosts = self.most_hosts.max(other.most_hosts);
        self.calls += other.calls;
        self.entries += other.entries;
        self.refused += other.refused;
        self.quiet += other.quiet;
        self.ties += other.ties;
        self.start_ties += other.start_ties;
        self.stopped_by_clear += other.stopped_by_clear;
        self.stopped_by_lower += other.stopped_by_lower;
        self.kept += other.kept;
        self.refusals.iter_mut().zip(other.refusals).for_each(|(count, more)| *count += more);
    }
}

/// A number with a comma after each thousand.
pub fn thousands(number: usize) -> String {
    let digits = number.to_string();
    let groups = digits.as_bytes().rchunks(3).rev();
    groups.map(String::from_utf8_lossy).collect::<Vec<_>>().join(",")
}

#[cfg(test)]
mod tests {
    use super::thousands;

    #[test]
    fn commas() {
        assert_eq!([0, 999, 1000, 1_234_567].map(thousands), ["0", "999", "1,000", "1,234,567"]);
    }
}
