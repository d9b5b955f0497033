//! The calls on a state behind `&mut`, which is changed where it stands.

use super::host;
use super::lookup;
use super::state::*;

#[inline(never)]
pub fn set_up(host: &mut Host, call: &Call, settings: &[Setting; INTERFACES]) -> Outcome {
    match host::set_up(call, settings) {
        Ok(fresh) => {
            *host = fresh;
            Outcome::Ready
        }
        Err(refusal) => {
            *host = Host::default();
            Outcome::Refused(refusal)
        }
    }
}

#[inline(never)]
pub fn start(host: &mut Host, call: &Call, name: usize, out: &mut [u8]) -> (Outcome, Endpoint) {
    host::told(host::start(host, call, name, out))
}

#[inline(never)]
pub fn receive(host: &mut Host, call: &Call, arrival: &Arrival, out: &mut [u8]) -> (Outcome, Endpoint) {
    host::told(host::receive(host, call, arrival, out))
}

#[inline(never)]
pub fn tick(host: &mut Host, call: &Call, out: &mut [u8]) -> (Outcome, Endpoint) {
    host::told(host::tick(host, call, out))
}

/// A refused start leaves an ended lookup.
#[inline(never)]
pub fn start_lookup(lookup: &mut Lookup, asked: &Asked, out: &mut [u8]) -> (LookupOutcome, Endpoint) {
    let served = lookup::start(lookup, asked, out);
    if served.is_err() {
        *lookup = Lookup::default();
    }
    lookup::told(served)
}

#[inline(never)]
pub fn receive_lookup(lookup: &mut Lookup, arrival: &Arrival, time: u64, out: &mut [u8]) -> (LookupOutcome, Endpoint) {
    lookup::told(lookup::receive(lookup, arrival, time, out))
}

#[inline(never)]
pub fn tick_lookup(lookup: &mut Lookup, time: u64, out: &mut [u8]) -> (LookupOutcome, Endpoint) {
    lookup::told(lookup::tick(lookup, time, out))
}
