//! Those calls of `by_value` that are measured, with C's calling convention: the state lies on the stack as a copy of
//! its own, as a struct of C does.

// Rust stands on both sides, so nothing but the convention has to be C's.
#![allow(improper_ctypes_definitions)]

use super::host;
use super::lookup;
use super::state::*;

#[inline(never)]
pub extern "C" fn receive(mut host: Host, call: &Call, arrival: &Arrival, out: &mut [u8]) -> (Host, Outcome, Endpoint) {
    let (outcome, to) = host::told(host::receive(&mut host, call, arrival, out));
    (host, outcome, to)
}

#[inline(never)]
pub extern "C" fn tick(mut host: Host, call: &Call, out: &mut [u8]) -> (Host, Outcome, Endpoint) {
    let (outcome, to) = host::told(host::tick(&mut host, call, out));
    (host, outcome, to)
}

#[inline(never)]
pub extern "C" fn receive_lookup(
    mut lookup: Lookup,
    arrival: &Arrival,
    time: u64,
    out: &mut [u8],
) -> (Lookup, LookupOutcome, Endpoint) {
    let (outcome, to) = lookup::told(lookup::receive(&mut lookup, arrival, time, out));
    (lookup, outcome, to)
}
