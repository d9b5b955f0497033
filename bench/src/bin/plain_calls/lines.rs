//! The lines that are printed.

use crate::entries::Prefix;
use bench::plain::names;
use bench::plain::refusal::Refusal;
use bench::plain::state::{Endpoint, LookupOutcome, Outcome};
use bench::plain::table::Names;
use std::fmt::{Arguments, Write};

/// Writing to a string cannot fail.
fn put(text: &mut String, words: Arguments) {
    let _ = text.write_fmt(words);
}

fn put_hex(text: &mut String, octets: &[u8]) {
    octets.iter().for_each(|octet| put(text, format_args!("{octet:02x}")));
}

pub fn end(text: &mut String, at: usize, why: &str) {
    put(text, format_args!("end at={at} why={why}\n"));
}

pub fn table(text: &mut String, number: usize, octets: &[u8]) {
    let mut names = Names::default();
    match names.read(octets) {
        Ok(()) => put(text, format_args!("{number} table good names={}\n", names.count())),
        Err(at) => put(text, format_args!("{number} table refused no=2 at={at}\n")),
    }
}

pub fn settings(text: &mut String, number: usize) {
    put(text, format_args!("{number} settings\n"));
}

pub fn name(text: &mut String, number: usize, message: &[u8], offset: usize) {
    let (mut expanded, mut labels) = (Vec::new(), 0);
    let take = |label: &[u8]| {
        expanded.extend(label);
        labels += 1;
    };
    let Some(read) = names::read_labels(message, offset, take) else {
        return put(text, format_args!("{number} name bad\n"));
    };
    expanded.push(0);
    put(text, format_args!("{number} name next={} pointers={} labels={labels} name=", read.next, read.pointers));
    put_hex(text, &expanded);
    text.push('\n');
}

/// The first words of a call's line.
pub fn called(text: &mut String, number: usize, word: &str, prefix: &Prefix) {
    let Prefix { interface, time, id, .. } = prefix;
    put(text, format_args!("{number} {word} if={interface} t={time} id={id} "));
}

fn put_refused(text: &mut String, refusal: &Refusal) {
    put(text, format_args!("refused no={}", refusal.number()));
    if let Refusal::Table { at } = refusal {
        put(text, format_args!(" at={at}"));
    }
}

fn put_sent(text: &mut String, word: &str, to: &Endpoint, octets: &[u8]) {
    put(text, format_args!("{word} to={}/", to.address.family));
    put_hex(text, &to.address.octets);
    put(text, format_args!("/{} len={} hex=", to.port, octets.len()));
    put_hex(text, octets);
}

/// The rest of the line of a host's call.
pub fn outcome(text: &mut String, outcome: &Outcome, to: &Endpoint, out: &[u8]) {
    match outcome {
        Outcome::Refused(refusal) => put_refused(text, refusal),
        Outcome::Ready => put(text, format_args!("ready")),
        Outcome::Quiet => put(text, format_args!("quiet")),
        Outcome::Kept { name } => put(text, format_args!("kept name={name}")),
        Outcome::Query { name, len } => {
            put_sent(text, "query", to, &out[..*len]);
            put(text, format_args!(" name={name}"));
        }
        Outcome::Reply { len } => put_sent(text, "reply", to, &out[..*len]),
        Outcome::Unique { name } => put(text, format_args!("unique name={name}")),
        Outcome::Shared { name } => put(text, format_args!("shared name={name}")),
        Outcome::Stopped { name } => put(text, format_args!("stopped name={name}")),
    }
    text.push('\n');
}

/// The octets that a host's call wrote.
pub fn written(outcome: &Outcome) -> usize {
    match outcome {
        Outcome::Query { len, .. } | Outcome::Reply { len } => *len,
        _ => 0,
    }
}

/// The rest of the line of a lookup's call.
pub fn lookup_outcome(text: &mut String, outcome: &LookupOutcome, to: &Endpoint, out: &[u8]) {
    match outcome {
        LookupOutcome::Refused(refusal) => put_refused(text, refusal),
        LookupOutcome::Quiet => put(text, format_args!("quiet")),
        LookupOutcome::Query { len } => put_sent(text, "query", to, &out[..*len]),
        LookupOutcome::Part { at, answers } => put(text, format_args!("part at={at} an={answers}")),
        LookupOutcome::Found { at, answers } => put(text, format_args!("found at={at} an={answers}")),
        LookupOutcome::Collected => put(text, format_args!("found")),
        LookupOutcome::NoSuchName => put(text, format_args!("none")),
    }
    text.push('\n');
}

/// A line of its own if a call wrote past the octets that it tells of.
pub fn unwritten(text: &mut String, written: usize, out: &[u8]) {
    if out[written..].iter().any(|octet| *octet != 0xA5) {
        put(text, format_args!("octets after the {written} written have changed\n"));
    }
}
