//! One run from a seed: a random list on a random link, the states it leaves, and those of a list that starts a holder
//! first.

use super::given::random_hosts;
use super::host::State;
use super::link::{Link, Step};
use super::list::{random_list, serial_list};
use super::premise::Premise;
use crate::lines::Outcome;
use crate::random::Random;

pub struct Run {
    pub seed: u64,
    pub link: Link,
    /// The steps of the random list.
    pub steps: Vec<Step>,
    pub states: States,
}

/// The states of all hosts after the random list, and after the list that starts a holder first, if there is one.
#[derive(Clone, PartialEq, Eq, Debug)]
pub struct States {
    pub random: Vec<State>,
    pub serial: Option<Vec<State>>,
}

/// A way in which the states are not as is claimed. Even without a premise the rules do not let it come about that
/// none holds the name: what stops a host is the reply of another that goes on. The lists run until none is checking.
#[derive(Clone, Copy, PartialEq, Eq, Debug)]
pub enum Way {
    TwoHolders,
    NoHolder,
    StillChecking,
    OtherThanSerial,
}

pub const WAYS: [Way; 4] = [Way::TwoHolders, Way::NoHolder, Way::StillChecking, Way::OtherThanSerial];

impl Way {
    pub fn words(self) -> &'static str {
        match self {
            Way::TwoHolders => "two or more hold the name",
            Way::NoHolder => "none holds it",
            Way::StillChecking => "one is off or still checking",
            Way::OtherThanSerial => "other states than after the serial list",
        }
    }
}

impl States {
    pub fn holders(&self) -> Vec<usize> {
        (0..self.random.len()).filter(|host| self.random[*host] == State::Holding).collect()
    }

    /// In which ways the claim fails; it holds if there is none.
    pub fn ways(&self) -> Vec<Way> {
        let fails = |way: &Way| match way {
            Way::TwoHolders => self.holders().len() > 1,
            Way::NoHolder => self.holders().is_empty(),
            Way::StillChecking => self.random.iter().any(|state| matches!(state, State::Off | State::Checking)),
            Way::OtherThanSerial => self.serial.as_ref().is_some_and(|serial| *serial != self.random),
        };
        WAYS.into_iter().filter(fails).collect()
    }
}

pub fn run(seed: u64, broken: Option<Premise>) -> Result<Run, String> {
    let mut random = Random::new(seed);
    let mut link = Link::new(random_hosts(&mut random, broken));
    for host in &link.hosts {
        if host.outcomes[0] != (Outcome::Good { names: usize::from(host.given.names) }) {
            return Err(format!("a table that is good gives {:?}", host.outcomes[0]));
        }
    }
    random_list(&mut link, &mut random, broken)?;
    let latest = latest(&link.steps);
    let mut states = States { random: link.tell(&mut random, latest)?, serial: None };
    let steps = link.steps.clone();
    let holders = states.holders();
    if !holders.is_empty() {
        let first = random.pick(&holders);
        serial_list(&mut link, &mut random, first)?;
        let latest = self::latest(&link.steps);
        states.serial = Some(link.tell(&mut random, latest)?);
    }
    Ok(Run { seed, link, steps, states })
}

fn latest(steps: &[Step]) -> u64 {
    steps.iter().map(|step| step.entry.time).max().unwrap_or(0)
}

#[cfg(test)]
mod tests {
    use super::{run, State, States, Way};

    #[test]
    fn claim_holds_for_a_few_seeds() {
        for seed in 0..60 {
            assert_eq!(run(seed, None).map(|run| run.states.ways()), Ok(vec![]), "seed {seed}");
        }
    }

    #[test]
    fn ways_to_fail_are_told() {
        let two = vec![State::Holding, State::Holding];
        let states = States { random: two, serial: Some(vec![State::Holding, State::Stopped]) };
        assert_eq!(states.ways(), [Way::TwoHolders, Way::OtherThanSerial]);
        let states = States { random: vec![State::Stopped, State::Checking], serial: None };
        assert_eq!(states.ways(), [Way::NoHolder, Way::StillChecking]);
    }
}
