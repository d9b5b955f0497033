//! The rules of a host: set-up, start, receive and tick. A refused call changes nothing.

use super::message::{self, Message, ANY, IN};
use super::refusal::Refusal;
use super::state::*;
use super::table::Names;

/// What a call comes to, and where the octets written are to be sent.
pub type Served = Result<(Outcome, Endpoint), Refusal>;

const NOWHERE: Endpoint = Endpoint { address: Address { family: 0, octets: [0; 16] }, port: 0 };

#[inline]
fn silent(outcome: Outcome) -> Served {
    Ok((outcome, NOWHERE))
}

#[inline]
pub fn told(served: Served) -> (Outcome, Endpoint) {
    served.unwrap_or_else(|refusal| (Outcome::Refused(refusal), NOWHERE))
}

#[inline(always)]
pub fn set_up(call: &Call, settings: &[Setting; INTERFACES]) -> Result<Host, Refusal> {
    Names::default().read(call.table).map_err(|at| Refusal::Table { at })?;
    if call.time > LATEST {
        return Err(Refusal::Clock);
    }
    if settings.iter().any(Setting::is_bad) {
        return Err(Refusal::Settings);
    }
    let interfaces = settings.map(|setting| Interface { setting, names: [NameState::Off; NAMES] });
    Ok(Host { interfaces, clock: call.time })
}

/// The checks that every later call begins with; the table's names are read on the way.
#[inline(always)]
fn open(host: &Host, call: &Call, names: &mut Names) -> Result<(), Refusal> {
    names.read(call.table).map_err(|at| Refusal::Table { at })?;
    if !host.interfaces.get(call.interface).is_some_and(|interface| interface.setting.address.is_used()) {
        return Err(Refusal::Interface);
    }
    if call.time > LATEST || call.time < host.clock {
        return Err(Refusal::Clock);
    }
    Ok(())
}

#[inline(always)]
pub fn start(host: &mut Host, call: &Call, name: usize, out: &mut [u8]) -> Served {
    let out = out.first_chunk_mut().ok_or(Refusal::Room)?;
    let mut names = Names::default();
    open(host, call, &mut names)?;
    if name >= names.count() {
        return Err(Refusal::NotOurs);
    }
    let interface = &mut host.interfaces[call.interface];
    let state = &mut interface.names[name];
    match *state {
        NameState::Off => {}
        NameState::Stopped { until } if until <= call.time => {}
        NameState::Stopped { .. } => return Err(Refusal::TooSoon),
        _ => return Err(Refusal::Busy),
    }
    host.clock = call.time;
    if names.is_shared(name) {
        *state = NameState::Shared;
        return silent(Outcome::Shared { name });
    }
    *state = NameState::Verifying { sends: 1, id: call.id, due: interface.setting.due(call.time) };
    let len = message::write_name_query(out, call.id, names.octets(call.table, name), ANY);
    Ok((Outcome::Query { name, len }, Endpoint::group(interface.setting.address.family)))
}

#[inline(always)]
pub fn tick(host: &mut Host, call: &Call, out: &mut [u8]) -> Served {
    let out = out.first_chunk_mut().ok_or(Refusal::Room)?;
    let mut names = Names::default();
    open(host, call, &mut names)?;
    host.clock = call.time;
    let Interface { setting, names: states } = &mut host.interfaces[call.interface];
    let is_due = |state: &NameState| match state {
        NameState::Verifying { due, .. } | NameState::Defending { due, .. } => *due <= call.time,
        _ => false,
    };
    let Some(name) = states.iter().take(names.count()).position(is_due) else {
        return silent(Outcome::Quiet);
    };
    match states[name] {
        NameState::Verifying { sends, id, .. } if sends < SENDS => {
            states[name] = NameState::Verifying { sends: sends + 1, id, due: setting.due(call.time) };
            let len = message::write_name_query(out, id, names.octets(call.table, name), ANY);
            Ok((Outcome::Query { name, len }, Endpoint::group(setting.address.family)))
        }
        _ => {
            states[name] = NameState::Unique;
            silent(Outcome::Unique { name })
        }
    }
}

#[inline(always)]
pub fn receive(host: &mut Host, call: &Call, arrival: &Arrival, out: &mut [u8]) -> Served {
    let out = out.first_chunk_mut().ok_or(Refusal::Room)?;
    let mut names = Names::default();
    open(host, call, &mut names)?;
    let family = host.interfaces[call.interface].setting.address.family;
    let message = Message::read(arrival, family, false)?;
    let found = names.find(call.table, message.question.name);
    if message.is_response() {
        return hear(host, call, arrival, &message, found.ok_or(Refusal::Unmatched)?);
    }
    let name = found.ok_or(Refusal::NotOurs)?;
    let flags = match host.interfaces[call.interface].names[name] {
        NameState::Off => return Err(Refusal::NotOurs),
        NameState::Stopped { .. } => return Err(Refusal::Stopped),
        NameState::Unique if message.is_conflict() => return defend(host, call, arrival, &message, name, out),
        _ if message.is_conflict() => return Err(Refusal::Notification),
        NameState::Shared => 0x0400,
        NameState::Verifying { .. } => 0x0100,
        NameState::Unique | NameState::Defending { .. } => 0,
    };
    host.clock = call.time;
    let records = names.records(call.table, name, call.interface);
    let len = message::write_reply(out, &message, flags, records);
    Ok((Outcome::Reply { len }, arrival.from))
}

/// Whether an address is one of the host's own.
#[inline]
fn is_own(host: &Host, address: &Address) -> bool {
    is_ours(host.interfaces.iter().map(|interface| &interface.setting), address)
}

/// A response: another host has the name, or wants it too.
#[inline(always)]
fn hear(host: &mut Host, call: &Call, arrival: &Arrival, message: &Message, name: usize) -> Served {
    let interface = &host.interfaces[call.interface];
    let (awaited, lost) = match interface.names[name] {
        NameState::Verifying { id, .. } => ((id, ANY, IN), !message.is_tentative()),
        NameState::Defending { id, qtype, qclass, .. } => ((id, qtype, qclass), false),
        _ => return Err(Refusal::Unmatched),
    };
    if awaited != (message.id, message.question.qtype, message.question.qclass) {
        return Err(Refusal::Unmatched);
    }
    let source = &arrival.from.address;
    if is_own(host, source) {
        return Err(Refusal::Own);
    }
    host.clock = call.time;
    if !lost && !source.is_below(&interface.setting.address) {
        return silent(Outcome::Kept { name });
    }
    let until = call.time + message.rest(arrival.octets);
    host.interfaces[call.interface].names[name] = NameState::Stopped { until };
    silent(Outcome::Stopped { name })
}

/// A conflict notification for a unique name: the host asks for it once more.
#[inline(always)]
fn defend(
    host: &mut Host,
    call: &Call,
    arrival: &Arrival,
    message: &Message,
    name: usize,
    out: &mut [u8; ROOM],
) -> Served {
    if is_own(host, &arrival.from.address) {
        return Err(Refusal::Notification);
    }
    host.clock = call.time;
    let Interface { setting, names } = &mut host.interfaces[call.interface];
    let question = &message.question;
    let due = setting.due(call.time);
    names[name] = NameState::Defending { id: call.id, qtype: question.qtype, qclass: question.qclass, due };
    let len = message::write_query(out, call.id, question.octets);
    Ok((Outcome::Query { name, len }, Endpoint::group(setting.address.family)))
}
