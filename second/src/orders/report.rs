//! A situation that does not come out as it must: its two calls, and for each call whose lines differ those of both
//! programs in both orders. Its two call files are kept.

use super::both::{calls, files, lines_of};
use crate::compare::{describe, own_lines};
use crate::faults;
use crate::make::situations::{situation, Situation, Wish};
use crate::program::run_program;
use std::fmt::Write;
use std::path::Path;
use std::slice::from_ref;

/// The call files are kept here.
const KEEP: &str = "target/second";
/// No more calls than this are shown.
const MOST_CALLS: usize = 4;
const ORDERS: [&str; 2] = ["as they stand", "swapped"];

pub fn report(program: &Path, seed: u64, wish: Wish, why: &str) {
    let made = situation(seed, wish);
    println!("situation {seed}, {}: {why}", wish.words());
    print!("{}", show(program, &made));
    for (order, file) in files(from_ref(&made)).iter().enumerate() {
        let path = Path::new(KEEP).join(format!("orders-{seed}-{order}.calls"));
        match std::fs::create_dir_all(KEEP).and_then(|()| std::fs::write(&path, file)) {
            Ok(()) => println!("the two calls {}: kept as {}", ORDERS[order], path.display()),
            Err(error) => println!("not kept as {}: {error}", path.display()),
        }
    }
}

fn show(program: &Path, made: &Situation) -> String {
    let pair = made.before.len();
    let mut text = "the two calls, in hexadecimal and as read:\n".to_string();
    for (place, call) in made.pair.iter().enumerate() {
        text.push_str(&describe(pair + place, call));
    }
    let files = files(from_ref(made));
    let runs = [(0, true), (0, false), (1, true), (1, false)].map(|(order, own)| {
        let whose = if own { "this program" } else { "the other one" };
        let lines = if own { own_lines(&files[order], faults::NONE) } else { run_program(program, &files[order]) };
        (format!("{whose}, {}", ORDERS[order]), lines.unwrap_or_else(|error| error), order == 1)
    });
    let lines = runs.each_ref().map(|(_, lines, swapped)| lines_of(made, lines, *swapped));
    let line = |run: usize, number: usize| lines[run].get(number).copied().unwrap_or("no line");
    let differs = |number: &usize| (1..4).any(|run| line(run, *number) != line(0, *number));
    let count = calls(made, false).count().max(lines.iter().map(Vec::len).max().unwrap_or(0));
    for number in (0..count).filter(differs).take(MOST_CALLS) {
        let _ = writeln!(text, "call {number}:");
        for (run, (whose, _, _)) in runs.iter().enumerate() {
            let _ = writeln!(text, "  {whose:<28} {}", line(run, number));
        }
    }
    text
}
