//! What a call comes to, and the line that is printed for it.

use crate::calls::{Address, Call, End, Why};
use std::fmt::Write;

/// Where a reply or a query is to be sent.
#[derive(Clone, Copy, PartialEq, Eq, Debug)]
pub struct Endpoint {
    pub address: Address,
    pub port: u16,
}

#[derive(Clone, PartialEq, Eq, Debug)]
pub enum Outcome {
    /// The refusal's number; the offset only with refusal 2.
    Refused {
        no: u8,
        at: Option<usize>,
    },
    Good {
        names: usize,
    },
    Ready,
    Shared {
        name: u8,
    },
    /// A query to send; the name's number only for a host's.
    Query {
        to: Endpoint,
        octets: Vec<u8>,
        name: Option<u8>,
    },
    Reply {
        to: Endpoint,
        octets: Vec<u8>,
    },
    Stopped {
        name: u8,
    },
    Kept {
        name: u8,
    },
    Unique {
        name: u8,
    },
    Quiet,
    /// Where a C-set response's answers begin, and their number.
    Part {
        at: usize,
        an: u16,
    },
    /// The same for the response that ends a lookup; a tick that ends one has no place to name.
    Found {
        place: Option<(usize, u16)>,
    },
    NoSuchName,
    Settings,
    NameBad,
    NameRead {
        next: usize,
        pointers: usize,
        labels: usize,
        octets: Vec<u8>,
    },
}

/// The line of entry `number`, without its newline.
pub fn line(number: usize, call: &Call, outcome: &Outcome) -> String {
    let mut text = format!("{number} {}", kind_word(call));
    if let Some(prefix) = call.prefix() {
        put(&mut text, format_args!(" if={} t={} id={}", prefix.interface, prefix.time, prefix.id));
    }
    match outcome {
        // The line of entry 40 is its kind alone.
        Outcome::Settings => {}
        Outcome::NameRead { next, pointers, labels, octets } => {
            put(&mut text, format_args!(" next={next} pointers={pointers} labels={labels} name="));
            hexadecimal(&mut text, octets);
        }
        _ => {
            put(&mut text, format_args!(" {}", what_word(outcome)));
            fields(&mut text, outcome);
        }
    }
    text
}

/// The line that tells why the run of a file ended early.
pub fn end_line(end: &End) -> String {
    let why = match end.why {
        Why::Cut => "cut",
        Why::Short => "short",
        Why::Kind => "kind",
        Why::Size => "size",
        Why::Long => "long",
    };
    format!("end at={} why={why}", end.at)
}

fn kind_word(call: &Call) -> &'static str {
    match call {
        Call::Table(_) => "table",
        Call::SetUp { .. } => "set-up",
        Call::Start { .. } => "start",
        Call::Datagram { .. } => "datagram",
        Call::Tick { .. } => "tick",
        Call::Settings(_) => "settings",
        Call::Ask { .. } => "ask",
        Call::Answer { .. } => "answer",
        Call::AskTick { .. } => "ask-tick",
        Call::Name { .. } => "name",
    }
}

fn what_word(outcome: &Outcome) -> &'static str {
    match outcome {
        Outcome::Refused { .. } => "refused",
        Outcome::Good { .. } => "good",
        Outcome::Ready => "ready",
        Outcome::Shared { .. } => "shared",
        Outcome::Query { .. } => "query",
        Outcome::Reply { .. } => "reply",
        Outcome::Stopped { .. } => "stopped",
        Outcome::Kept { .. } => "kept",
        Outcome::Unique { .. } => "unique",
        Outcome::Quiet => "quiet",
        Outcome::Part { .. } => "part",
        Outcome::Found { .. } => "found",
        Outcome::NoSuchName => "none",
        Outcome::Settings => "settings",
        Outcome::NameBad => "bad",
        Outcome::NameRead { .. } => "read",
    }
}

/// The fields after the word, in the order that the format lays down.
fn fields(text: &mut String, outcome: &Outcome) {
    match outcome {
        Outcome::Refused { no, at } => {
            put(text, format_args!(" no={no}"));
            if let Some(at) = at {
                put(text, format_args!(" at={at}"));
            }
        }
        Outcome::Good { names } => put(text, format_args!(" names={names}")),
        Outcome::Part { at, an } | Outcome::Found { place: Some((at, an)) } => {
            put(text, format_args!(" at={at} an={an}"));
        }
        Outcome::Query { to, octets, name } => {
            sent(text, to, octets);
            if let Some(name) = name {
                put(text, format_args!(" name={name}"));
            }
        }
        Outcome::Reply { to, octets } => sent(text, to, octets),
        Outcome::Shared { name } | Outcome::Stopped { name } | Outcome::Kept { name } | Outcome::Unique { name } => {
            put(text, format_args!(" name={name}"));
        }
        _ => {}
    }
}

fn sent(text: &mut String, to: &Endpoint, octets: &[u8]) {
    put(text, format_args!(" to={}/", to.address.family));
    hexadecimal(text, &to.address.octets);
    put(text, format_args!("/{} len={} hex=", to.port, octets.len()));
    hexadecimal(text, octets);
}

pub fn hexadecimal(text: &mut String, octets: &[u8]) {
    const DIGITS: &[u8; 16] = b"0123456789abcdef";
    for octet in octets {
        text.push(char::from(DIGITS[usize::from(octet >> 4)]));
        text.push(char::from(DIGITS[usize::from(octet & 15)]));
    }
}

/// Writing to a string cannot fail.
fn put(text: &mut String, arguments: std::fmt::Arguments) {
    let _ = text.write_fmt(arguments);
}
