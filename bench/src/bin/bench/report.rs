//! The tables that are printed.

use crate::cases;
use crate::measure::{measure, Time, IMPLEMENTATIONS, ROUNDS};
use crate::proved;
use bench::plain::state::{Endpoint, Host, Lookup, LookupOutcome, Outcome};
use std::fmt::Display;
use std::mem::size_of;

fn row(title: &str, columns: impl IntoIterator<Item = impl Display>) {
    print!("{title:34}");
    columns.into_iter().for_each(|column| print!("{column:>18}"));
    println!();
}

/// The titles of the implementations, and of the first one's ratio to each of the others.
fn times_head() -> Vec<String> {
    let [first, others @ ..] = IMPLEMENTATIONS;
    let titles = IMPLEMENTATIONS.iter().map(|one| one.title.to_string());
    titles.chain(others.iter().map(|other| format!("{}/{}", first.key, other.key))).collect()
}

fn times_row(times: &[Time]) -> Vec<String> {
    let (first, others) = (&times[0], &times[1..]);
    let shown = times.iter().map(|time| format!("{:.1} ({:.1})", time.median, time.least));
    let ratio = |other: &Time| format!("{:.2} ({:.2})", first.median / other.median, first.least / other.least);
    shown.chain(others.iter().map(ratio)).collect()
}

/// The time of each case's call.
pub fn times() -> Result<(), String> {
    println!("ns per call: median (least) of {ROUNDS} rounds; ratios of medians (of the least)");
    row("", times_head());
    for case in cases::all() {
        row(&case.title, times_row(&measure(&case)?));
    }
    println!("In each case all give the same state, outcome, destination and buffer.");
    Ok(())
}

/// The stack of each case's call.
pub fn stacks() -> Result<(), String> {
    println!("octets of stack per call, with the caller's frame for arguments and result");
    row("", IMPLEMENTATIONS.map(|one| one.title));
    for case in cases::all() {
        let mut used = Vec::new();
        for implementation in &IMPLEMENTATIONS {
            used.push((implementation.stack)(&case).ok_or("no thread could be made")?);
        }
        row(&case.title, used);
    }
    Ok(())
}

/// The sizes of the structs that hold a state.
pub fn sizes() {
    println!("octets of the structs");
    row("", ["proved, from C", "plain"]);
    row("host", [size_of::<proved::Host>(), size_of::<Host>()]);
    let given = size_of::<proved::Settings>() + size_of::<u64>() + size_of::<proved::Names>();
    row("of it, into a call", [given, size_of::<Host>()]);
    row("out of a later call of a host", [size_of::<proved::Step>(), size_of::<(Host, Outcome, Endpoint)>()]);
    row("lookup", [size_of::<proved::Lookup>(), size_of::<Lookup>()]);
    let steps = [size_of::<proved::LookupStep>(), size_of::<(Lookup, LookupOutcome, Endpoint)>()];
    row("out of a later call of a lookup", steps);
}
