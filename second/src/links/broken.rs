//! Links on which one premise of the claim is broken, to see that the check can fail, in both programs alike.

use super::counts::thousands;
use super::premise::Premise;
use super::run::{run, Run, Way, WAYS};
use super::seeds::each_seed;
use super::through::through_program;
use super::words::tell_run;
use crate::lines::Outcome;
use std::path::Path;

/// What one run with a broken premise came to.
struct Seen {
    /// The premise was not just allowed to be broken, but was.
    broken: bool,
    /// A tick was late by an interval or more.
    interval_late: bool,
    ways: Vec<Way>,
    /// Hosts, entries, family and seed, by which the shortest example is found, and its words.
    size: (usize, usize, u8, u64),
    words: Vec<String>,
}

/// Prints how the claim fails without the premise; false if it never fails, or if the two programs differ.
pub fn broken_premise(premise: Premise, program: &Path, seeds: (u64, u64, usize)) -> bool {
    let what = premise.broken();
    let (mut seen, mut faults) = (Vec::new(), Vec::new());
    each_seed(
        what,
        seeds,
        |seed| look(seed, premise, program).map_err(|why| format!("{what}, seed {seed}: {why}")),
        |result| match result {
            Ok(one) => seen.push(one),
            Err(why) => faults.push(why),
        },
    );
    faults.iter().take(3).for_each(|fault| println!("FAULT {fault}"));
    let failing: Vec<&Seen> = seen.iter().filter(|one| !one.ways.is_empty()).collect();
    print_failing(premise, &seen, &failing);
    let unbroken = failing.iter().filter(|one| !one.broken).count();
    if unbroken > 0 {
        println!("FAULT {what}: {unbroken} runs fail though nothing was broken in them");
    }
    faults.is_empty() && unbroken == 0 && !failing.is_empty()
}

fn print_failing(premise: Premise, seen: &[Seen], failing: &[&Seen]) {
    let broken = seen.iter().filter(|one| one.broken).count();
    println!(
        "broken premise, {}: {} runs, {} with it broken",
        premise.broken(),
        thousands(seen.len()),
        thousands(broken)
    );
    println!("  the claim fails in {}, through both programs alike", thousands(failing.len()));
    for way in WAYS {
        let count = failing.iter().filter(|one| one.ways.contains(&way)).count();
        println!("    {}: {}", way.words(), thousands(count));
    }
    if premise == Premise::TickWhenDue {
        let short = seen.iter().filter(|one| one.broken && !one.interval_late).count();
        let fail = failing.iter().filter(|one| !one.interval_late).count();
        println!("  with late ticks, but none by a whole interval: {} runs, {fail} fail", thousands(short));
    }
    if let Some(shortest) = failing.iter().min_by_key(|one| one.size) {
        println!("  shortest example, {}", shortest.words.join("\n    "));
    }
}

fn look(seed: u64, premise: Premise, program: &Path) -> Result<Seen, String> {
    let run = run(seed, Some(premise))?;
    let theirs = through_program(program, &run.link)?;
    if theirs != run.states {
        return Err(format!("states {:?}, but by the other program {theirs:?}", run.states));
    }
    let ways = run.states.ways();
    let words = if ways.is_empty() { Vec::new() } else { tell_run(&run) };
    let size = (run.link.hosts.len(), run.steps.len(), run.link.hosts[0].given.address().family, seed);
    Ok(Seen { broken: was_broken(&run, premise), interval_late: was_late(&run, true), ways, size, words })
}

fn was_broken(run: &Run, premise: Premise) -> bool {
    match premise {
        Premise::OneInterval | Premise::DifferentAddresses => true,
        Premise::ClockNeverBack => run.steps.windows(2).any(|pair| pair[1].entry.time < pair[0].entry.time),
        Premise::TickWhenDue => was_late(run, false),
    }
}

/// Whether a served tick came after its due time, or by an interval after it.
fn was_late(run: &Run, interval: bool) -> bool {
    run.steps.iter().any(|step| {
        let least = if interval { run.link.hosts[step.entry.host].given.interval() } else { 1 };
        step.due.is_some_and(|due| due + least <= step.entry.time)
            && matches!(step.outcome, Outcome::Query { .. } | Outcome::Unique { .. })
    })
}
