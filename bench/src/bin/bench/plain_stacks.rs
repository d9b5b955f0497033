//! The stack that a case's call uses with the plain responder, in each of its forms.

use crate::cases::{Case, Kind};
use bench::plain::state::{Endpoint, ROOM};
use bench::plain::{by_mut, by_value, c_by_value};
use bench::stack::used;
use std::hint::black_box;
use std::mem::take;

/// Makes a call that takes a state and gives the next one.
#[inline(always)]
fn through<S: Default, O>(state: &mut S, call: impl FnOnce(S) -> (S, O, Endpoint)) {
    let (next, outcome, to) = call(take(state));
    *state = next;
    black_box((outcome, to));
}

pub fn by_value(case: &Case) -> Option<usize> {
    let (call, arrival, mut out) = (case.call(), case.arrival(), [0; ROOM]);
    let (mut host, mut lookup) = (case.host(), case.lookup());
    match case.kind {
        Kind::Receive => used(|| through(&mut host, |host| by_value::receive(host, &call, &arrival, &mut out))),
        Kind::Tick => used(|| through(&mut host, |host| by_value::tick(host, &call, &mut out))),
        Kind::Answer => used(|| {
            lookup.phase = case.phase();
            through(&mut lookup, |lookup| by_value::receive_lookup(lookup, &arrival, call.time, &mut out));
        }),
    }
}

pub fn c_by_value(case: &Case) -> Option<usize> {
    let (call, arrival, mut out) = (case.call(), case.arrival(), [0; ROOM]);
    let (mut host, mut lookup) = (case.host(), case.lookup());
    match case.kind {
        Kind::Receive => used(|| through(&mut host, |host| c_by_value::receive(host, &call, &arrival, &mut out))),
        Kind::Tick => used(|| through(&mut host, |host| c_by_value::tick(host, &call, &mut out))),
        Kind::Answer => used(|| {
            lookup.phase = case.phase();
            through(&mut lookup, |lookup| c_by_value::receive_lookup(lookup, &arrival, call.time, &mut out));
        }),
    }
}

pub fn by_mut(case: &Case) -> Option<usize> {
    let (call, arrival, mut out) = (case.call(), case.arrival(), [0; ROOM]);
    let (mut host, mut lookup) = (case.host(), case.lookup());
    match case.kind {
        Kind::Receive => used(|| {
            black_box(by_mut::receive(&mut host, &call, &arrival, &mut out));
        }),
        Kind::Tick => used(|| {
            black_box(by_mut::tick(&mut host, &call, &mut out));
        }),
        Kind::Answer => used(|| {
            lookup.phase = case.phase();
            black_box(by_mut::receive_lookup(&mut lookup, &arrival, call.time, &mut out));
        }),
    }
}
