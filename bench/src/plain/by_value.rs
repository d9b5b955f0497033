//! The calls on a state that is passed and returned by value.

use super::host;
use super::lookup;
use super::state::*;

#[inline(never)]
pub fn set_up(call: &Call, settings: [Setting; INTERFACES]) -> (Host, Outcome) {
    match host::set_up(call, &settings) {
        Ok(host) => (host, Outcome::Ready),
        Err(refusal) => (Host::default(), Outcome::Refused(refusal)),
    }
}

#[inline(never)]
pub fn start(mut host: Host, call: &Call, name: usize, out: &mut [u8]) -> (Host, Outcome, Endpoint) {
    let (outcome, to) = host::told(host::start(&mut host, call, name, out));
    (host, outcome, to)
}

#[inline(never)]
pub fn receive(mut host: Host, call: &Call, arrival: &Arrival, out: &mut [u8]) -> (Host, Outcome, Endpoint) {
    let (outcome, to) = host::told(host::receive(&mut host, call, arrival, out));
    (host, outcome, to)
}

#[inline(never)]
pub fn tick(mut host: Host, call: &Call, out: &mut [u8]) -> (Host, Outcome, Endpoint) {
    let (outcome, to) = host::told(host::tick(&mut host, call, out));
    (host, outcome, to)
}

#[inline(never)]
pub fn start_lookup(asked: &Asked, out: &mut [u8]) -> (Lookup, LookupOutcome, Endpoint) {
    let mut lookup = Lookup::default();
    let (outcome, to) = lookup::told(lookup::start(&mut lookup, asked, out));
    (lookup, outcome, to)
}

#[inline(never)]
pub fn receive_lookup(
    mut lookup: Lookup,
    arrival: &Arrival,
    time: u64,
    out: &mut [u8],
) -> (Lookup, LookupOutcome, Endpoint) {
    let (outcome, to) = lookup::told(lookup::receive(&mut lookup, arrival, time, out));
    (lookup, outcome, to)
}

#[inline(never)]
pub fn tick_lookup(mut lookup: Lookup, time: u64, out: &mut [u8]) -> (Lookup, LookupOutcome, Endpoint) {
    let (outcome, to) = lookup::told(lookup::tick(&mut lookup, time, out));
    (lookup, outcome, to)
}
