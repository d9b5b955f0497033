//! The accepted calls that concern one name on one interface. No state is stored: what the name is there, how often it
//! was asked for, when it is due and until when a lost one is left alone are questions put to this list.

use crate::calls::{Address, Setting};
use crate::checks::LATEST;
use crate::faults::{self, Fault};
use crate::interfaces;
use crate::message::Claim;

/// Served timers after which a started name has left Verifying.
const SERVED_TO_UNIQUE: usize = 3;

/// How long a lost name is left alone, in milliseconds, if the response that it was lost to does not say.
const USUAL_WAIT: u64 = 30_000;

/// A TTL with its top bit set counts as 0.
const TOP_BIT: u32 = 1 << 31;

/// An accepted call that concerns the name.
#[derive(Clone, PartialEq, Eq, Debug)]
pub enum Accepted {
    /// A start, and whether the table then said that the name is shared.
    Start { time: u64, id: u16, shared: bool },
    /// A tick that served the name.
    Tick { time: u64 },
    /// A response to the name's check or defence.
    Response { time: u64, tentative: bool, source: Address, claim: Claim },
    /// A query with C set, which was followed by our own query for the same question.
    Notice { time: u64, id: u16, qtype: u16, class: u16 },
}

/// What a name is on an interface, as it follows from the list. A stopped one was lost, and is left alone until a time
/// that may lie beyond the clock's range.
#[derive(Clone, Copy, PartialEq, Eq, Debug)]
pub enum Standing {
    Off,
    Verifying { first_id: u16, sends: usize, due: u64 },
    Unique,
    Defending { id: u16, qtype: u16, class: u16, due: u64 },
    Stopped { until: u64 },
    Shared,
}

impl Standing {
    pub fn is_due(&self, time: u64, fault: Fault) -> bool {
        match self {
            Standing::Verifying { due, .. } | Standing::Defending { due, .. } => match fault {
                faults::DUE_BEFORE => *due < time,
                _ => *due <= time,
            },
            _ => false,
        }
    }
}

#[derive(Clone, Default, Debug)]
pub struct History(Vec<Accepted>);

impl History {
    pub fn add(&mut self, call: Accepted) {
        self.0.push(call);
    }

    pub fn standing(&self, setting: &Setting, fault: Fault) -> Standing {
        let calls = self.since_start();
        let Some(Accepted::Start { id, shared, .. }) = calls.first() else { return Standing::Off };
        if *shared {
            return Standing::Shared;
        }
        if let Some(until) = lost_until(calls, &setting.address, fault) {
            return Standing::Stopped { until };
        }
        match last_notice(calls) {
            Some(place) => defence(&calls[place..], *id, setting, fault),
            None => check(calls, *id, setting, fault),
        }
    }

    /// The calls from the last start on; none if the name was never started.
    fn since_start(&self) -> &[Accepted] {
        let start = self.0.iter().rposition(|call| matches!(call, Accepted::Start { .. }));
        start.map_or(&[], |start| &self.0[start..])
    }
}

/// The check that a start began, as long as no notice has followed.
fn check(calls: &[Accepted], first_id: u16, setting: &Setting, fault: Fault) -> Standing {
    let served = served_ticks(calls);
    if served >= SERVED_TO_UNIQUE {
        return Standing::Unique;
    }
    let sends = 1 + served;
    let due = match (fault, calls.first()) {
        (faults::DUE_FROM_DUE, Some(Accepted::Start { time, .. })) => {
            time + interfaces::interval(setting) * sends as u64
        }
        _ => last_send(calls) + interfaces::interval(setting),
    };
    Standing::Verifying { first_id, sends, due }
}

/// The defence that the notice at the list's beginning began, until a tick has served it.
fn defence(calls: &[Accepted], first_id: u16, setting: &Setting, fault: Fault) -> Standing {
    match calls.first() {
        Some(Accepted::Notice { id, qtype, class, .. }) if served_ticks(calls) == 0 => {
            let id = if fault == faults::DEFENCE_FIRST_ID { first_id } else { *id };
            let due = last_send(calls) + interfaces::interval(setting);
            Standing::Defending { id, qtype: *qtype, class: *class, due }
        }
        _ => Standing::Unique,
    }
}

/// A response stops the name if its source is below our address, or if T is clear while Verifying: no notice is
/// accepted before the check is done, so a response before the first notice came while Verifying. The name is then left
/// alone from the time of the response on for as long as that claims it.
fn lost_until(calls: &[Accepted], ours: &Address, fault: Fault) -> Option<u64> {
    let first_notice = calls.iter().position(|call| matches!(call, Accepted::Notice { .. })).unwrap_or(calls.len());
    calls.iter().enumerate().find_map(|(place, call)| {
        let Accepted::Response { time, tentative, source, claim } = call else { return None };
        let verifying = place < first_notice;
        let at_once = match fault {
            faults::T_IGNORED => verifying,
            faults::T_CLEAR_COMPARED => false,
            faults::DEFENCE_T_CLEAR => !*tentative,
            _ => verifying && !*tentative,
        };
        let lost = at_once || interfaces::is_below(source, ours, fault);
        let until = match fault {
            faults::STOP_FROM_QUERY => last_send(&calls[..place]) + wait(*claim, fault),
            faults::STOP_DEFENCE_NO_WAIT if !verifying => 0,
            faults::STOP_WITHIN_CLOCK => LATEST.min(time + wait(*claim, fault)),
            _ => time + wait(*claim, fault),
        };
        lost.then_some(until)
    })
}

/// How long a name is left alone, in milliseconds, that was lost to a response with this claim.
pub fn wait(claim: Claim, fault: Fault) -> u64 {
    match claim {
        Claim::NoAnswer if fault == faults::STOP_NO_ANSWER_0 => 0,
        Claim::BadAnswer if fault == faults::STOP_BAD_ANSWER_0 => 0,
        Claim::NoAnswer | Claim::BadAnswer => USUAL_WAIT,
        Claim::Seconds(ttl) => match fault {
            faults::STOP_TTL_UNREAD => USUAL_WAIT,
            faults::STOP_TOP_BIT_30 if ttl >= TOP_BIT => USUAL_WAIT,
            _ if ttl >= TOP_BIT && fault != faults::STOP_TOP_BIT_COUNTS => 0,
            faults::STOP_MILLISECONDS => u64::from(ttl),
            faults::STOP_32_BITS => u64::from(ttl.wrapping_mul(1_000)),
            _ => u64::from(ttl) * 1_000,
        },
    }
}

fn last_notice(calls: &[Accepted]) -> Option<usize> {
    calls.iter().rposition(|call| matches!(call, Accepted::Notice { .. }))
}

fn served_ticks(calls: &[Accepted]) -> usize {
    calls.iter().filter(|call| matches!(call, Accepted::Tick { .. })).count()
}

/// Every call that concerns a checking or defending name sends a query, but for a response.
fn last_send(calls: &[Accepted]) -> u64 {
    let sent = calls.iter().rev().find_map(|call| match call {
        Accepted::Start { time, .. } | Accepted::Tick { time } | Accepted::Notice { time, .. } => Some(*time),
        Accepted::Response { .. } => None,
    });
    sent.unwrap_or(0)
}

#[cfg(test)]
mod tests {
    use super::*;

    fn address(last: u8) -> Address {
        let mut octets = [0; 16];
        octets[..4].copy_from_slice(&[192, 0, 2, last]);
        Address { family: 4, octets }
    }

    fn response(time: u64, tentative: bool, last: u8, claim: Claim) -> Accepted {
        Accepted::Response { time, tentative, source: address(last), claim }
    }

    /// What the calls make of a name on an interface with 192.0.2.17 and 100 ms.
    fn standing(calls: &[Accepted], fault: Fault) -> Standing {
        History(calls.to_vec()).standing(&Setting { address: address(17), interval: 100 }, fault)
    }

    /// A start at 7, and one tick after it.
    fn verifying() -> Vec<Accepted> {
        vec![Accepted::Start { time: 7, id: 1, shared: false }, Accepted::Tick { time: 107 }]
    }

    /// The same name once it is Unique, and a notice at 400.
    fn defending() -> Vec<Accepted> {
        let mut calls = verifying();
        calls.extend([Accepted::Tick { time: 207 }, Accepted::Tick { time: 307 }]);
        calls.push(Accepted::Notice { time: 400, id: 2, qtype: 1, class: 1 });
        calls
    }

    /// Until when the name is left alone that is then lost at 450 to a response from below; 999 if it is not lost.
    fn until(mut calls: Vec<Accepted>, claim: Claim, fault: Fault) -> u64 {
        calls.push(response(450, true, 16, claim));
        match standing(&calls, fault) {
            Standing::Stopped { until } => until,
            _ => 999,
        }
    }

    #[test]
    fn a_lost_name_is_left_alone_for_as_long_as_it_is_claimed() {
        for calls in [verifying(), defending()] {
            let until = |claim| until(calls.clone(), claim, faults::NONE);
            assert_eq!(until(Claim::NoAnswer), 30_450);
            assert_eq!(until(Claim::BadAnswer), 30_450);
            assert_eq!([0, 1, 30].map(|ttl| until(Claim::Seconds(ttl))), [450, 1_450, 30_450]);
            assert_eq!(until(Claim::Seconds(TOP_BIT - 1)), 450 + 2_147_483_647_000);
            assert_eq!([TOP_BIT, TOP_BIT + 5, u32::MAX].map(|ttl| until(Claim::Seconds(ttl))), [450; 3]);
        }
    }

    #[test]
    fn only_the_response_that_stops_it_counts() {
        let kept = response(200, true, 18, Claim::Seconds(1));
        let lost = response(300, false, 18, Claim::Seconds(2));
        let mut calls = [verifying(), vec![kept.clone(), kept]].concat();
        assert_eq!(standing(&calls, faults::NONE), Standing::Verifying { first_id: 1, sends: 2, due: 207 });
        calls.push(lost);
        assert_eq!(standing(&calls, faults::NONE), Standing::Stopped { until: 2_300 });
        // A new start begins anew.
        calls.push(Accepted::Start { time: 2_300, id: 3, shared: false });
        assert_eq!(standing(&calls, faults::NONE), Standing::Verifying { first_id: 3, sends: 1, due: 2_400 });
        calls.push(response(LATEST, true, 16, Claim::NoAnswer));
        assert_eq!(standing(&calls, faults::NONE), Standing::Stopped { until: LATEST + 30_000 });
        assert_eq!(standing(&calls, faults::STOP_WITHIN_CLOCK), Standing::Stopped { until: LATEST });
    }

    #[test]
    fn faults_change_how_long_a_lost_name_is_left_alone() {
        let after = |claim, fault| until(verifying(), claim, fault) as i64 - 450;
        let (ttl, top) = (Claim::Seconds(20), Claim::Seconds(TOP_BIT));
        assert_eq!(after(ttl, faults::STOP_MILLISECONDS), 20);
        assert_eq!(after(ttl, faults::STOP_TTL_UNREAD), 30_000);
        assert_eq!(after(ttl, faults::STOP_FROM_QUERY), 20_000 - 450 + 107);
        assert_eq!(after(top, faults::STOP_TOP_BIT_COUNTS), 2_147_483_648_000);
        assert_eq!(after(top, faults::STOP_TOP_BIT_30), 30_000);
        assert_eq!(after(Claim::Seconds(TOP_BIT - 1), faults::STOP_32_BITS), 4_294_966_296);
        assert_eq!(after(Claim::NoAnswer, faults::STOP_NO_ANSWER_0), 0);
        assert_eq!(after(Claim::BadAnswer, faults::STOP_BAD_ANSWER_0), 0);
        assert_eq!(after(ttl, faults::STOP_DEFENCE_NO_WAIT), 20_000);
        assert_eq!(until(defending(), ttl, faults::STOP_DEFENCE_NO_WAIT), 0);
    }
}
