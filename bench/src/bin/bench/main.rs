//! Measures the calls of the proved library against the plain responder: time, growth with the table, stack, and the
//! sizes of states.

mod cases;
mod growth;
mod measure;
mod plain_runs;
mod plain_stacks;
mod proved;
mod proved_runs;
mod report;
mod seen;
mod svg;

use std::process::ExitCode;

const USAGE: &str = "usage: bench [COMMAND]
  (none)                         time of a call in each case, and the ratios
  --plot FILE                    time against the table's size, printed and drawn as SVG
  --stack                        octets of stack that a call uses in each case
  --sizes                        octets of the state structs
  --list                         the names of cases and of implementations, for --count
  --count CASE IMPLEMENTATION N  makes the call N times and prints nothing, for callgrind";

fn plot(file: &str) -> Result<(), String> {
    let svg = growth::draw()?;
    std::fs::write(file, svg).map_err(|error| format!("{file}: {error}"))
}

fn count(case: &str, implementation: &str, calls: &str) -> Result<(), String> {
    let cases = cases::all();
    let case = cases.iter().find(|one| one.key == case).ok_or("no such case")?;
    let found = measure::IMPLEMENTATIONS.iter().find(|one| one.key == implementation);
    let calls = calls.parse().map_err(|error| format!("{calls}: {error}"))?;
    (found.ok_or("no such implementation")?.run)(case, calls);
    Ok(())
}

fn list() {
    let cases: Vec<_> = cases::all().iter().map(|case| case.key).collect();
    println!("cases {}", cases.join(" "));
    println!("implementations {}", measure::IMPLEMENTATIONS.map(|one| one.key).join(" "));
}

fn main() -> ExitCode {
    let words: Vec<String> = std::env::args().skip(1).collect();
    let done = match words.iter().map(String::as_str).collect::<Vec<_>>()[..] {
        [] => report::times(),
        ["--plot", file] => plot(file),
        ["--stack"] => report::stacks(),
        ["--sizes"] => {
            report::sizes();
            Ok(())
        }
        ["--list"] => {
            list();
            Ok(())
        }
        ["--count", case, implementation, calls] => count(case, implementation, calls),
        _ => Err(USAGE.to_string()),
    };
    match done {
        Ok(()) => ExitCode::SUCCESS,
        Err(reason) => {
            eprintln!("{reason}");
            ExitCode::FAILURE
        }
    }
}
