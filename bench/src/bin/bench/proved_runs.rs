//! The call of a case made many times with the proved library, and the stack that it uses. The loops are as those of
//! the plain responder; the step that a call gives is taken into the host or the lookup, as a program in C does it.

use crate::cases::{Case, Kind};
use crate::proved::{flat_phase, llmnr_lookup_receive, llmnr_receive, llmnr_tick};
use crate::proved::{Address, Endpoint, Host, Lookup, LookupStep, Name, Step};
use crate::seen::{Run, State, Told};
use bench::plain::state::{self as plain, Call, ROOM};
use bench::stack::used;
use std::hint::black_box;
use std::time::Instant;

/// A datagram, with addresses as C has them.
#[derive(Clone, Copy)]
struct Arrival<'a> {
    from: Endpoint,
    to: Address,
    octets: &'a [u8],
}

impl<'a> From<plain::Arrival<'a>> for Arrival<'a> {
    fn from(plain::Arrival { from, to, octets }: plain::Arrival<'a>) -> Arrival<'a> {
        Arrival { from: from.into(), to: to.into(), octets }
    }
}

#[inline(always)]
fn receive(host: &Host, call: &Call, arrival: &Arrival, out: &mut [u8]) -> Step {
    let (Call { table, interface: i, time, id }, Arrival { from, to, octets }) = (*call, *arrival);
    let (s, c, n) = (host.settings, host.clock, host.interfaces[i]);
    let (t, d, o) = (table.as_ptr(), octets.as_ptr(), out.as_mut_ptr());
    // Each pointer comes with the length of its slice, and nothing else uses `out` meanwhile.
    unsafe { llmnr_receive(s, c, n, t, table.len(), i, from, to, d, octets.len(), time, id, o, out.len()) }
}

#[inline(always)]
fn tick(host: &Host, call: &Call, out: &mut [u8]) -> Step {
    let Call { table, interface: i, time, id } = *call;
    let (s, c, n) = (host.settings, host.clock, host.interfaces[i]);
    // As above.
    unsafe { llmnr_tick(s, c, n, table.as_ptr(), table.len(), i, time, id, out.as_mut_ptr(), out.len()) }
}

#[inline(always)]
fn answer(lookup: Lookup, call: &Call, arrival: &Arrival, out: &mut [u8]) -> LookupStep {
    let (Call { time, id, .. }, Arrival { from, to, octets }) = (*call, *arrival);
    let (d, o) = (octets.as_ptr(), out.as_mut_ptr());
    // As above.
    unsafe { llmnr_lookup_receive(lookup, from, to, d, octets.len(), time, id, o, out.len()) }
}

pub fn run(case: &Case, calls: u32) -> Run {
    match case.kind {
        Kind::Receive => run_receive(case, calls),
        Kind::Tick => run_tick(case, calls),
        Kind::Answer => run_answer(case, calls),
    }
}

fn run_receive(case: &Case, calls: u32) -> Run {
    let (call, arrival, mut out) = (case.call(), case.arrival().into(), [0xA5; ROOM]);
    let (mut host, state) = (Host::from(case.host()), Name::from(case.state));
    let mut last = (Told::default().into(), plain::Endpoint::default().into());
    let begin = Instant::now();
    for _ in 0..calls {
        if case.changes {
            host.interfaces[black_box(&call).interface].names[0] = state;
        }
        let step = receive(&host, black_box(&call), black_box(&arrival), black_box(&mut out[..]));
        host.take(black_box(&call).interface, &step);
        last = black_box((step.outcome, step.to));
    }
    Run::new(begin.elapsed(), State::Host(Box::new(host.into())), (last.0, last.1.into()), out)
}

fn run_tick(case: &Case, calls: u32) -> Run {
    let (call, mut host, mut out) = (case.call(), Host::from(case.host()), [0xA5; ROOM]);
    let mut last = (Told::default().into(), plain::Endpoint::default().into());
    let begin = Instant::now();
    for _ in 0..calls {
        let step = tick(&host, black_box(&call), black_box(&mut out[..]));
        host.take(black_box(&call).interface, &step);
        last = black_box((step.outcome, step.to));
    }
    Run::new(begin.elapsed(), State::Host(Box::new(host.into())), (last.0, last.1.into()), out)
}

fn run_answer(case: &Case, calls: u32) -> Run {
    let (call, arrival, mut out) = (case.call(), case.arrival().into(), [0xA5; ROOM]);
    let (mut lookup, phase) = (Lookup::from(case.lookup()), flat_phase(case.phase()));
    let mut last = (Told::default().into(), plain::Endpoint::default().into());
    let begin = Instant::now();
    for _ in 0..calls {
        (lookup.phase, lookup.sends, lookup.due) = phase;
        let step = answer(lookup, black_box(&call), black_box(&arrival), black_box(&mut out[..]));
        lookup.take(&step);
        last = black_box((step.outcome, step.to));
    }
    Run::new(begin.elapsed(), State::Lookup(Box::new(lookup.into())), (last.0, last.1.into()), out)
}

/// Octets of stack that the case's call uses.
pub fn stack(case: &Case) -> Option<usize> {
    let (call, arrival, mut out) = (case.call(), case.arrival().into(), [0; ROOM]);
    let (host, lookup) = (Host::from(case.host()), Lookup::from(case.lookup()));
    match case.kind {
        Kind::Receive => used(|| {
            black_box(&receive(&host, &call, &arrival, &mut out));
        }),
        Kind::Tick => used(|| {
            black_box(&tick(&host, &call, &mut out));
        }),
        Kind::Answer => used(|| {
            black_box(&answer(lookup, &call, &arrival, &mut out));
        }),
    }
}
