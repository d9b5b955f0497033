//! The call of a case made many times with the plain responder, in each of its forms. The state that a call gives goes
//! into the next one; where a call changes the name's state or the lookup's phase, this is set back before the next.

use crate::cases::{Case, Kind};
use crate::seen::{Run, State};
use bench::plain::state::{Endpoint, LookupOutcome, Outcome, ROOM};
use bench::plain::{by_mut, by_value, c_by_value};
use std::hint::black_box;
use std::time::Instant;

/// The loops of a form whose calls take a state and give the next one. They are a macro since a function of another
/// calling convention is no `Fn`.
macro_rules! runs_by_value {
    ($form:ident) => {
        pub fn $form(case: &Case, calls: u32) -> Run {
            fn receive(case: &Case, calls: u32) -> Run {
                let (mut host, call, arrival, mut out) = (case.host(), case.call(), case.arrival(), [0xA5; ROOM]);
                let mut last = (Outcome::Ready, Endpoint::default());
                let begin = Instant::now();
                for _ in 0..calls {
                    if case.changes {
                        host.interfaces[black_box(&call).interface].names[0] = case.state;
                    }
                    let (next, outcome, to) =
                        $form::receive(host, black_box(&call), black_box(&arrival), black_box(&mut out[..]));
                    host = next;
                    last = black_box((outcome, to));
                }
                Run::new(begin.elapsed(), State::Host(Box::new(host)), last, out)
            }

            fn tick(case: &Case, calls: u32) -> Run {
                let (mut host, call, mut out) = (case.host(), case.call(), [0xA5; ROOM]);
                let mut last = (Outcome::Ready, Endpoint::default());
                let begin = Instant::now();
                for _ in 0..calls {
                    let (next, outcome, to) = $form::tick(host, black_box(&call), black_box(&mut out[..]));
                    host = next;
                    last = black_box((outcome, to));
                }
                Run::new(begin.elapsed(), State::Host(Box::new(host)), last, out)
            }

            fn answer(case: &Case, calls: u32) -> Run {
                let (mut lookup, call, arrival, mut out) = (case.lookup(), case.call(), case.arrival(), [0xA5; ROOM]);
                let mut last = (LookupOutcome::Quiet, Endpoint::default());
                let begin = Instant::now();
                for _ in 0..calls {
                    lookup.phase = case.phase();
                    let (next, outcome, to) = $form::receive_lookup(
                        lookup,
                        black_box(&arrival),
                        black_box(&call).time,
                        black_box(&mut out[..]),
                    );
                    lookup = next;
                    last = black_box((outcome, to));
                }
                Run::new(begin.elapsed(), State::Lookup(Box::new(lookup)), last, out)
            }

            match case.kind {
                Kind::Receive => receive(case, calls),
                Kind::Tick => tick(case, calls),
                Kind::Answer => answer(case, calls),
            }
        }
    };
}

runs_by_value!(by_value);
runs_by_value!(c_by_value);

pub fn by_mut(case: &Case, calls: u32) -> Run {
    match case.kind {
        Kind::Receive => mut_receive(case, calls),
        Kind::Tick => mut_tick(case, calls),
        Kind::Answer => mut_answer(case, calls),
    }
}

fn mut_receive(case: &Case, calls: u32) -> Run {
    let (mut host, call, arrival, mut out) = (case.host(), case.call(), case.arrival(), [0xA5; ROOM]);
    let mut last = (Outcome::Ready, Endpoint::default());
    let begin = Instant::now();
    for _ in 0..calls {
        if case.changes {
            host.interfaces[black_box(&call).interface].names[0] = case.state;
        }
        last = black_box(by_mut::receive(&mut host, black_box(&call), black_box(&arrival), black_box(&mut out[..])));
    }
    Run::new(begin.elapsed(), State::Host(Box::new(host)), last, out)
}

fn mut_tick(case: &Case, calls: u32) -> Run {
    let (mut host, call, mut out) = (case.host(), case.call(), [0xA5; ROOM]);
    let mut last = (Outcome::Ready, Endpoint::default());
    let begin = Instant::now();
    for _ in 0..calls {
        last = black_box(by_mut::tick(&mut host, black_box(&call), black_box(&mut out[..])));
    }
    Run::new(begin.elapsed(), State::Host(Box::new(host)), last, out)
}

fn mut_answer(case: &Case, calls: u32) -> Run {
    let (mut lookup, call, arrival, mut out) = (case.lookup(), case.call(), case.arrival(), [0xA5; ROOM]);
    let mut last = (LookupOutcome::Quiet, Endpoint::default());
    let begin = Instant::now();
    for _ in 0..calls {
        lookup.phase = case.phase();
        last = black_box(by_mut::receive_lookup(
            &mut lookup,
            black_box(&arrival),
            black_box(&call).time,
            black_box(&mut out[..]),
        ));
    }
    Run::new(begin.elapsed(), State::Lookup(Box::new(lookup)), last, out)
}
