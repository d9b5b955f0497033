//! The commands of the second program.

use second::options::Options;
use second::{compare, links, make, orders, pairs, planted, session};
use std::io::{Read, Write};
use std::process::exit;

const USAGE: &str = "usage: second COMMAND
  run                   the lines for the call file on standard input
  make SEED [CALLS]     a random call file on standard output
  compare [OPTIONS]     both programs on random call files; the lines must be equal
  faults [OPTIONS]      each planted fault must be found by the comparison
  orders [OPTIONS]      two calls on two interfaces at one time, made in either order
                        (only --program, --from, --jobs, and --pairs N (20000))
  links [OPTIONS]       several hosts on one link in simulation, by both programs
                        (only --program, --from, --jobs, and --runs N)
  timeline              a picture of one start of a link
  names [OPTIONS]       random pairs of names and whether they are equal, for tests/names.c
                        (only --from, --pairs N (100000), and --fault WORD)
  help                  this text
options: --program PATH (crates/run_calls/out/run_calls) --from SEED (0) --files N (2000)
         --calls N (300) --jobs N (all cores) --keep DIR (target/second) --no-tally";

fn bad_usage(reason: &str) -> i32 {
    eprintln!("{reason}\n{USAGE}");
    2
}

/// Writes to standard output; the reader may have gone away.
fn put(octets: &[u8]) -> i32 {
    i32::from(std::io::stdout().write_all(octets).is_err())
}

fn run() -> i32 {
    let mut file = Vec::new();
    match std::io::stdin().read_to_end(&mut file) {
        Ok(_) => put(session::run(&file, 0).as_bytes()),
        Err(error) => {
            eprintln!("standard input: {error}");
            1
        }
    }
}

fn make_file(arguments: &[String]) -> i32 {
    let numbers: Result<Vec<u64>, _> = arguments.iter().map(|word| word.parse()).collect();
    match numbers.as_deref() {
        Ok([seed]) => put(&make::make(*seed, second::options::JUDGED_CALLS)),
        Ok([seed, calls]) => put(&make::make(*seed, *calls as usize)),
        _ => bad_usage("make: a seed and perhaps a number of calls"),
    }
}

fn with_options(arguments: &[String], command: fn(&Options) -> i32) -> i32 {
    match Options::read(arguments) {
        Ok(options) => command(&options),
        Err(reason) => bad_usage(&reason),
    }
}

fn main() {
    let arguments: Vec<String> = std::env::args().skip(1).collect();
    let Some((command, rest)) = arguments.split_first() else { exit(bad_usage("no command")) };
    exit(match command.as_str() {
        "run" if rest.is_empty() => run(),
        "make" => make_file(rest),
        "compare" => with_options(rest, compare::compare),
        "faults" => with_options(rest, planted::planted),
        "orders" => orders::orders(rest),
        "links" => links::links(rest),
        "timeline" => links::timeline(rest),
        "names" => pairs::pairs(rest),
        "help" | "--help" | "-h" => {
            println!("{USAGE}");
            0
        }
        _ => bad_usage(&format!("{command}: unknown, or with too many words")),
    });
}
