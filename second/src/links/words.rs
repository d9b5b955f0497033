//! A run told in words: its hosts, and each entry of its list with what came of it.

use super::counts::thousands;
use super::host::{used_octets, State};
use super::link::{Arrival, Step, What};
use super::run::Run;
use crate::calls::Address;
use crate::lines::Outcome;

/// Hosts are called A, B and so on; times count from the first entry.
pub fn letter(host: usize) -> char {
    char::from(b'A' + host as u8)
}

pub fn address_words(address: &Address) -> String {
    let octets = used_octets(address);
    if address.family == 4 {
        return octets.iter().map(|octet| octet.to_string()).collect::<Vec<_>>().join(".");
    }
    std::net::Ipv6Addr::from(address.octets).to_string()
}

/// One line for the hosts, one for each entry, one for the end.
pub fn tell_run(run: &Run) -> Vec<String> {
    let host_words = |(place, host): (usize, &super::host::Host)| {
        let interval = thousands(host.given.interval() as usize);
        format!("{} {} with {interval} ms", letter(place), address_words(&host.given.address()))
    };
    let hosts: Vec<String> = run.link.hosts.iter().enumerate().map(host_words).collect();
    let mut lines = vec![format!("seed {}: {}", run.seed, hosts.join(", "))];
    let first = run.steps.first().map_or(0, |step| step.entry.time);
    lines.extend(run.steps.iter().map(|step| step_words(step, first)));
    lines.push(format!("after it {}", state_words(&run.states.random)));
    if let Some(serial) = run.states.serial.as_ref().filter(|serial| **serial != run.states.random) {
        lines.push(format!("after the serial list {}", state_words(serial)));
    }
    lines
}

fn state_words(states: &[State]) -> String {
    let word = |state: &State| match state {
        State::Off => "is off",
        State::Checking => "is still checking",
        State::Holding => "holds the name",
        State::Stopped => "has stopped",
    };
    states
        .iter()
        .enumerate()
        .map(|(host, state)| format!("{} {}", letter(host), word(state)))
        .collect::<Vec<_>>()
        .join(", ")
}

/// A time as it stands to the first entry's; it may lie before it if the clock goes back.
fn since(time: u64, first: u64) -> String {
    format!("{:+} ms", time as i64 - first as i64)
}

fn step_words(step: &Step, first: u64) -> String {
    let host = letter(step.entry.host);
    let done = match (&step.outcome, step.entry.what) {
        (Outcome::Query { .. }, What::Start(_)) => "starts and asks".to_string(),
        (Outcome::Query { .. }, What::Tick) => "asks again".to_string(),
        (Outcome::Unique { .. }, _) => "is unique".to_string(),
        (Outcome::Refused { no, .. }, What::Start(_)) => format!("starts, refused {no}"),
        (Outcome::Refused { no, .. }, What::Tick) => format!("ticks, refused {no}"),
        _ => "ticks, quiet".to_string(),
    };
    let mut words = format!("{} {host} {done}", since(step.entry.time, first));
    if let Some(due) = step.due.filter(|due| *due < step.entry.time) {
        words.push_str(&format!(", due at {}", since(due, first)));
    }
    for arrival in &step.arrivals {
        words.push_str(&arrival_words(arrival));
    }
    words
}

fn arrival_words(arrival: &Arrival) -> String {
    let (from, to) = (letter(arrival.from), letter(arrival.to));
    let bit = if arrival.tentative { "T set" } else { "T clear" };
    match (&arrival.outcome, arrival.reply) {
        (Outcome::Refused { no: 12, .. }, false) => format!("; {to} is off"),
        (Outcome::Refused { no: 13, .. }, false) => format!("; {to} has stopped"),
        (Outcome::Refused { no, .. }, false) => format!("; {to} does not hear it (refusal {no})"),
        (Outcome::Reply { .. }, _) => String::new(),
        (Outcome::Kept { .. }, _) => format!("; {from} replies with {bit}, {to} is kept"),
        (Outcome::Stopped { .. }, _) => format!("; {from} replies with {bit}, {to} stops"),
        (Outcome::Refused { no, .. }, true) => format!("; {from} replies with {bit}, which {to} refuses with {no}"),
        _ => String::new(),
    }
}
