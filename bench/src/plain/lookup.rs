//! The rules of a lookup: start, receive and tick. A refused call changes nothing.

use super::message::{self, Message, IN};
use super::names;
use super::refusal::Refusal;
use super::state::*;

pub type Served = Result<(LookupOutcome, Endpoint), Refusal>;

const NOWHERE: Endpoint = Endpoint { address: Address { family: 0, octets: [0; 16] }, port: 0 };

#[inline]
fn silent(outcome: LookupOutcome) -> Served {
    Ok((outcome, NOWHERE))
}

#[inline]
pub fn told(served: Served) -> (LookupOutcome, Endpoint) {
    served.unwrap_or_else(|refusal| (LookupOutcome::Refused(refusal), NOWHERE))
}

/// The settings of an interface that is used.
#[inline]
fn used(settings: &[Setting; INTERFACES], interface: usize) -> Option<&Setting> {
    settings.get(interface).filter(|setting| setting.address.is_used())
}

/// The lookup is written only where the start is accepted.
#[inline(always)]
pub fn start(lookup: &mut Lookup, asked: &Asked, out: &mut [u8]) -> Served {
    let out = out.first_chunk_mut().ok_or(Refusal::Room)?;
    let setting = used(asked.settings, asked.interface).ok_or(Refusal::Interface)?;
    if asked.time > LATEST {
        return Err(Refusal::Clock);
    }
    if asked.name.len() < 2 || !names::is_whole(asked.name) {
        return Err(Refusal::Question);
    }
    if !asked.permitted && !names::is_single(asked.name) && !names::is_reverse(asked.name) {
        return Err(Refusal::SeveralLabels);
    }
    lookup.settings = *asked.settings;
    lookup.interface = asked.interface;
    lookup.name = [0; 255];
    lookup.name[..asked.name.len()].copy_from_slice(asked.name);
    lookup.len = asked.name.len();
    lookup.qtype = asked.qtype;
    lookup.id = asked.id;
    lookup.clock = asked.time;
    lookup.phase = Phase::Asking { sends: 1, due: setting.due(asked.time) };
    let len = message::write_name_query(out, asked.id, asked.name, asked.qtype);
    Ok((LookupOutcome::Query { len }, Endpoint::group(setting.address.family)))
}

#[inline(always)]
pub fn receive(lookup: &mut Lookup, arrival: &Arrival, time: u64, out: &[u8]) -> Served {
    if out.len() < ROOM {
        return Err(Refusal::Room);
    }
    let setting = used(&lookup.settings, lookup.interface).ok_or(Refusal::Interface)?;
    if time > LATEST || time < lookup.clock {
        return Err(Refusal::Clock);
    }
    let message = Message::read(arrival, setting.address.family, true)?;
    let collecting = match lookup.phase {
        Phase::Asking { due, .. } => Phase::Collecting { due },
        Phase::Collecting { .. } if message.is_conflict() => lookup.phase,
        _ => return Err(Refusal::Unmatched),
    };
    let question = &message.question;
    if (message.id, question.qtype, question.qclass) != (lookup.id, lookup.qtype, IN)
        || !names::is_same(question.name, &lookup.name[..lookup.len.min(255)])
    {
        return Err(Refusal::Unmatched);
    }
    if is_ours(&lookup.settings, &arrival.from.address) {
        return Err(Refusal::Own);
    }
    if message.is_tentative() {
        return Err(Refusal::Tentative);
    }
    let (at, answers) = (message.end(), message.answers);
    if !message::has_records(arrival.octets, at, answers) {
        return Err(Refusal::Records);
    }
    lookup.clock = time;
    if message.is_conflict() {
        lookup.phase = collecting;
        return silent(LookupOutcome::Part { at, answers });
    }
    lookup.phase = Phase::Ended;
    silent(LookupOutcome::Found { at, answers })
}

#[inline(always)]
pub fn tick(lookup: &mut Lookup, time: u64, out: &mut [u8]) -> Served {
    let out = out.first_chunk_mut().ok_or(Refusal::Room)?;
    if time > LATEST || time < lookup.clock {
        return Err(Refusal::Clock);
    }
    lookup.clock = time;
    let Some(setting) = used(&lookup.settings, lookup.interface) else {
        return silent(LookupOutcome::Quiet);
    };
    match lookup.phase {
        Phase::Asking { sends, due } if due <= time => {
            if sends >= SENDS {
                lookup.phase = Phase::Ended;
                return silent(LookupOutcome::NoSuchName);
            }
            lookup.phase = Phase::Asking { sends: sends + 1, due: setting.due(time) };
            let name = &lookup.name[..lookup.len.min(255)];
            let len = message::write_name_query(out, lookup.id, name, lookup.qtype);
            Ok((LookupOutcome::Query { len }, Endpoint::group(setting.address.family)))
        }
        Phase::Collecting { due } if due <= time => {
            lookup.phase = Phase::Ended;
            silent(LookupOutcome::Collected)
        }
        _ => silent(LookupOutcome::Quiet),
    }
}
