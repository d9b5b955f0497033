//! Several hosts on one link in simulation: the claim of one owner, checked for many random lists through both programs.

mod broken;
mod counts;
mod given;
mod host;
mod layout;
mod link;
mod list;
mod plan;
mod premise;
mod run;
mod seeds;
mod svg;
mod tables;
mod through;
mod timeline;
mod words;

use crate::options::Seeds;
use broken::broken_premise;
use counts::{thousands, Counts};
use premise::PREMISES;
use run::run;
use seeds::each_seed;
use std::path::Path;
use std::time::Instant;
use through::through_program;

/// At least this many runs for each broken premise.
const LEAST_BROKEN: u64 = 600;

/// So many runs with all premises kept, unless it is told otherwise.
const RUNS: u64 = 3000;

/// Runs links with all premises kept, then with each of four broken. Gives 0 if all came out as it must.
pub fn links(arguments: &[String]) -> i32 {
    let options = match Seeds::read(arguments, "--runs", RUNS) {
        Ok(options) => options,
        Err(why) => {
            eprintln!("links: {why}\nusage: second links [--program PATH] [--from N] [--runs N] [--jobs N]");
            return 2;
        }
    };
    let began = Instant::now();
    let mut good = kept_premises(&options);
    for (place, premise) in PREMISES.into_iter().enumerate() {
        // Other seeds than those of the runs with all premises kept.
        let from = options.from.wrapping_add((place as u64 + 1) << 32);
        let runs = LEAST_BROKEN.max(options.count / 5);
        good &= broken_premise(premise, &options.program, (from, runs, options.jobs));
    }
    println!(
        "links: {} after {:.1} s",
        if good { "all as it must be" } else { "FAILED" },
        began.elapsed().as_secs_f64()
    );
    i32::from(!good)
}

/// Prints the picture of one start of a link.
pub fn timeline(arguments: &[String]) -> i32 {
    if !arguments.is_empty() {
        eprintln!("usage: second timeline");
        return 2;
    }
    match timeline::picture() {
        Ok(text) => {
            print!("{text}");
            0
        }
        Err(why) => {
            eprintln!("timeline: {why}");
            1
        }
    }
}

fn kept_premises(options: &Seeds) -> bool {
    let began = Instant::now();
    let (mut counts, mut faults) = (Counts::default(), Vec::new());
    each_seed(
        "links",
        (options.from, options.count, options.jobs),
        |seed| check(seed, &options.program).map_err(|why| format!("seed {seed}: {why}")),
        |result| match result {
            Ok(one) => counts += one,
            Err(why) => faults.push(why),
        },
    );
    faults.iter().take(5).for_each(|fault| println!("FAULT {fault}"));
    print_counts(&counts, options, began.elapsed().as_secs_f64());
    println!("  runs that do not hold: {}", thousands(faults.len()));
    faults.is_empty()
}

/// The claim for one seed, by our lines and by those of the other program.
fn check(seed: u64, program: &Path) -> Result<Counts, String> {
    let run = run(seed, None)?;
    let theirs = through_program(program, &run.link)?;
    for (states, whose) in [(&run.states, "ours"), (&theirs, "the other program's")] {
        let ways: Vec<&str> = states.ways().iter().map(|way| way.words()).collect();
        if !ways.is_empty() || states.serial.is_none() {
            return Err(format!("by {whose} lines {}", ways.join(", ")));
        }
    }
    Ok(Counts::of(&run))
}

fn print_counts(counts: &Counts, options: &Seeds, seconds: f64) {
    let Counts { runs, hosts, most_hosts, calls, entries, refused, quiet, ties, start_ties, .. } = *counts;
    println!(
        "links: {} runs hold from seed {}, each line equal to that of {}, in {seconds:.1} s",
        thousands(runs),
        options.from,
        options.program.display()
    );
    println!("  {} hosts, at most {most_hosts} on a link, {} calls", thousands(hosts), thousands(calls));
    println!(
        "  {} entries in the random lists, {} of them refused and {} quiet",
        thousands(entries),
        thousands(refused),
        thousands(quiet)
    );
    println!("  {} runs with a tie, {} with a tie of two starts", thousands(ties), thousands(start_ties));
    println!(
        "  stopped by a response with T clear {}, by a lower address with T set {}; kept {}",
        thousands(counts.stopped_by_clear),
        thousands(counts.stopped_by_lower),
        thousands(counts.kept)
    );
    let given = |(no, count): (usize, &usize)| (*count > 0).then(|| format!("{no}: {}", thousands(*count)));
    let refusals: Vec<String> = counts.refusals.iter().enumerate().filter_map(given).collect();
    println!("  refusals by number: {}", refusals.join(", "));
}
