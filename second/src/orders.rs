//! Whether the order of two calls matters: two calls on different interfaces at one time, made in either order, must
//! give the same two lines and leave the same state. On one interface or at two times the order does matter, and so it
//! does with each of three planted faults: these must be seen.

mod both;
mod reached;
mod report;

use crate::faults::{self, Fault, FAULTS};
use crate::make::situations::{situation, Situation, Wish};
use crate::options::Seeds;
use crate::rows::Rows;
use crate::workers::Queue;
use std::slice::from_ref;
use std::time::Instant;

/// From this many pairs on, each class must be reached.
const JUDGED_PAIRS: u64 = 20_000;

/// So many situations stand in one call file.
const BATCH: u64 = 25;

/// A planted fault must show in one of so many situations.
const MOST_FAULTY: u64 = 2_000;

/// Those by which a call sees or serves another interface, and the one by which a refused call sets the clock.
const PLANTED: [Fault; 3] =
    [faults::STATE_OF_ANY_INTERFACE, faults::REFUSED_TIME_SETS_CLOCK, faults::SERVES_ANY_INTERFACE];

/// What came of many situations.
struct Found {
    rows: Rows,
    /// The seeds of those in which the order matters.
    differing: Vec<u64>,
    /// The seed of one in which the programs' lines are not equal, and why.
    trouble: Option<(u64, String)>,
}

impl Found {
    fn new() -> Found {
        Found { rows: Rows::new(reached::EXPECTED), differing: Vec::new(), trouble: None }
    }

    fn merge(&mut self, other: Found) {
        self.rows.merge(other.rows);
        self.differing.extend(other.differing);
        self.trouble = [self.trouble.take(), other.trouble].into_iter().flatten().min();
    }
}

/// Makes so many situations in both orders, through both programs.
fn run(options: &Seeds, wish: Wish, pairs: u64) -> Found {
    let queue = Queue::new(0, pairs.div_ceil(BATCH));
    let parts = queue.work(options.jobs, wish.words(), || work(options, wish, pairs, &queue));
    let mut found = Found::new();
    if parts.len() < options.jobs {
        found.trouble = Some((options.from, "a thread did not come to its end".to_string()));
    }
    parts.into_iter().for_each(|part| found.merge(part));
    found
}

fn work(options: &Seeds, wish: Wish, pairs: u64, queue: &Queue) -> Found {
    let mut found = Found::new();
    while let Some(batch) = queue.next() {
        let seed = options.from.wrapping_add(batch * BATCH);
        let count = BATCH.min(pairs - batch * BATCH);
        let situations: Vec<Situation> = (0..count).map(|place| situation(seed.wrapping_add(place), wish)).collect();
        match both::differing_through(&options.program, &situations) {
            Ok(places) => {
                let claimed = wish == Wish::TwoInterfaces;
                situations.iter().filter(|_| claimed).for_each(|situation| reached::count(&mut found.rows, situation));
                if claimed && !places.is_empty() {
                    queue.stop();
                }
                found.differing.extend(places.into_iter().map(|place| seed.wrapping_add(place as u64)));
            }
            Err(why) => {
                queue.stop();
                found.trouble = Some(culprit(options, seed, &situations, why));
            }
        }
        queue.finish_one();
    }
    found
}

/// The first of these situations that is in trouble by itself; else all of them are.
fn culprit(options: &Seeds, seed: u64, situations: &[Situation], why: String) -> (u64, String) {
    let alone = |situation: &Situation| both::differing_through(&options.program, from_ref(situation)).err();
    let first = situations.iter().enumerate().find_map(|(place, situation)| Some((place, alone(situation)?)));
    first.map_or((seed, why), |(place, why)| (seed.wrapping_add(place as u64), why))
}

/// The claim itself, with what its pairs have reached.
fn claim(options: &Seeds) -> bool {
    let begin = Instant::now();
    let Found { rows, differing, trouble } = run(options, Wish::TwoInterfaces, options.count);
    let differs = differing.into_iter().min().map(|seed| (seed, "the order matters".to_string()));
    if let Some((seed, why)) = trouble.or(differs) {
        report::report(&options.program, seed, Wish::TwoInterfaces, &why);
        return false;
    }
    let seconds = begin.elapsed().as_secs_f64();
    println!("{} pairs of calls from seed {} made in both orders in {seconds:.1} s", options.count, options.from);
    print!("{}", rows.table());
    let faults = if options.count >= JUDGED_PAIRS { rows.faults() } else { Vec::new() };
    faults.iter().for_each(|fault| println!("{fault}"));
    faults.is_empty()
}

/// Pairs that the claim does not cover: in some the order must matter.
fn beyond_claim(options: &Seeds, wish: Wish) -> bool {
    let pairs = (options.count / 10).max(200);
    let Found { differing, trouble, .. } = run(options, wish, pairs);
    if let Some((seed, why)) = &trouble {
        report::report(&options.program, *seed, wish, why);
    }
    println!("{}: the order matters in {} of {pairs} pairs", wish.words(), differing.len());
    trouble.is_none() && !differing.is_empty()
}

/// With a planted fault this program must come to a situation of the claim in which the order matters.
fn fault_shows(options: &Seeds, fault: Fault) -> bool {
    let matters = |seed: &u64| {
        let made = situation(*seed, Wish::TwoInterfaces);
        both::differing_by_fault(from_ref(&made), fault).is_ok_and(|places| !places.is_empty())
    };
    let found = (0..MOST_FAULTY).map(|number| options.from.wrapping_add(number)).find(matters);
    let place = found.map_or("NO SITUATION".to_string(), |seed| format!("situation {seed}"));
    println!("fault {fault}: the order matters in {place:<16} {}", FAULTS[fault - 1]);
    found.is_some()
}

/// The command; 0 if the order never matters where it must not, and all else is as it must be.
pub fn orders(arguments: &[String]) -> i32 {
    let options = match Seeds::read(arguments, "--pairs", JUDGED_PAIRS) {
        Ok(options) => options,
        Err(why) => {
            eprintln!("orders: {why}\nusage: second orders [--program PATH] [--from N] [--pairs N] [--jobs N]");
            return 2;
        }
    };
    let mut good = claim(&options);
    for wish in [Wish::OneInterface, Wish::TwoTimes] {
        good = good && beyond_claim(&options, wish);
    }
    for fault in PLANTED {
        good = good && fault_shows(&options, fault);
    }
    let program = options.program.file_name().unwrap_or_default().to_string_lossy();
    let end = if good { "no difference" } else { "FAILED" };
    println!(
        "orders: {} pairs {}, made in both orders through {program}: {end}",
        options.count,
        Wish::TwoInterfaces.words()
    );
    i32::from(!good)
}

#[cfg(test)]
mod tests {
    use super::*;
    use std::path::PathBuf;

    #[test]
    fn faults_show_and_no_fault_does_not() {
        let options = Seeds { program: PathBuf::new(), from: 0, count: 0, jobs: 1 };
        assert!(PLANTED.into_iter().all(|fault| fault_shows(&options, fault)));
        let made: Vec<Situation> = (0..200).map(|seed| situation(seed, Wish::TwoInterfaces)).collect();
        assert!(made.chunks(20).all(|made| both::differing_by_fault(made, faults::NONE) == Ok(Vec::new())));
    }
}
