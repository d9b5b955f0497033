//! Measures two ways to compare names with compression pointers: both are expanded into arrays first, or they are
//! compared side by side where they stand. Prints tables in Markdown. `names.sh` builds and runs it.

mod cases;
mod ways;

use cases::Case;
use std::process::ExitCode;
use ways::{measure, ROUNDS, WAYS};

fn times(cases: &[Case]) -> Result<(), String> {
    let [expanded, side_by_side] = WAYS.map(|way| way.title);
    println!("ns per comparison: median of {ROUNDS} rounds\n");
    println!("| names | letters | {expanded} | {side_by_side} | {side_by_side} / {expanded} |");
    println!("|---|---|---:|---:|---:|");
    for case in cases {
        let [expanded, side_by_side] = measure(case)?;
        let ratio = side_by_side / expanded;
        println!("| {} | {} | {expanded:.1} | {side_by_side:.1} | {ratio:.2} |", case.title, case.letters);
    }
    Ok(())
}

fn stacks(cases: &[Case]) -> Result<(), String> {
    println!("\n| way | octets of stack, at most in these cases |\n|---|---:|");
    for way in WAYS {
        let used: Option<Vec<usize>> = cases.iter().map(|case| way.stack(case)).collect();
        let most = used.and_then(|used| used.into_iter().max()).ok_or("no thread could be made")?;
        println!("| {} | {most} |", way.title);
    }
    Ok(())
}

fn main() -> ExitCode {
    let cases = cases::all();
    match times(&cases).and_then(|()| stacks(&cases)) {
        Ok(()) => ExitCode::SUCCESS,
        Err(reason) => {
            eprintln!("{reason}");
            ExitCode::FAILURE
        }
    }
}
