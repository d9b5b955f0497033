//! The checks of a host's calls: for each call a table of refusal numbers and tests, in the order of rules F.

use crate::calls::Setting;
use crate::checks::{Arrival, Given};
use crate::faults;
use crate::history::Standing;
use crate::interfaces;
use crate::message::{ANY, CLASS_IN};
use crate::table::Lent;

/// What the checks of a host's call look at.
pub struct HostView<'a> {
    pub given: Given<'a>,
    pub lent: &'a Lent,
    /// The number in the table of the name that is started or asked for, if it is there.
    pub number: Option<usize>,
    /// What that name is on the call's interface.
    pub standing: Standing,
}

impl HostView<'_> {
    /// Whether the table says that the name is shared.
    fn is_shared(&self) -> bool {
        self.number.and_then(|number| self.lent.names.get(number)).is_some_and(|name| name.shared)
    }
}

/// What the checks of a received datagram look at.
pub struct ReceiveView<'a> {
    pub host: HostView<'a>,
    pub arrival: &'a Arrival,
}

type HostCheck = (u8, fn(&HostView) -> bool);
type ReceiveCheck = (u8, fn(&ReceiveView) -> bool);

pub const SET_UP: &[HostCheck] = &[
    (2, |call| call.lent.bad_at.is_some()),
    (4, |call| call.given.wrong_time()),
    (20, |call| call.given.settings.iter().any(|setting| is_wrong_setting(setting, call.given.fault))),
];

pub const START: &[HostCheck] = &[
    (1, |call| call.given.no_room()),
    (2, |call| call.lent.bad_at.is_some()),
    (3, |call| call.given.no_interface()),
    (4, |call| call.given.wrong_time()),
    // Only a planted fault looks at this before the table.
    (21, |call| call.given.fault == faults::TOO_SOON_FIRST && is_too_soon(call)),
    (12, |call| call.number.is_none()),
    (19, is_busy),
    (21, is_too_soon),
];

pub const TICK: &[HostCheck] = &[
    (1, |call| call.given.no_room()),
    (2, |call| call.lent.bad_at.is_some()),
    (3, |call| call.given.no_interface()),
    (4, |call| call.given.wrong_time()),
];

pub const QUERY: &[ReceiveCheck] = &[
    (1, |call| call.host.given.no_room()),
    (2, |call| call.host.lent.bad_at.is_some()),
    (3, |call| call.host.given.no_interface()),
    (4, |call| call.host.given.wrong_time()),
    (5, |call| call.arrival.wrong_length(call.host.given.fault)),
    (6, |call| call.arrival.wrong_address(&call.host.given)),
    (7, |call| call.arrival.wrong_opcode()),
    // The RCODE of a query is ignored: refusal 8 is only given by a planted fault.
    (8, |call| call.host.given.fault == faults::QUERY_RCODE && call.arrival.wrong_rcode()),
    (9, has_wrong_query_counts),
    (10, |call| call.arrival.no_question()),
    (11, has_wrong_class),
    (12, |call| call.host.number.is_none() || call.host.standing == Standing::Off),
    // A name of whose records none is valid here is answered: only a planted fault refuses it.
    (12, |call| call.host.given.fault == faults::NONE_HERE_REFUSED && has_none_here(&call.host)),
    (13, |call| matches!(call.host.standing, Standing::Stopped { .. })),
    (14, is_wrong_notice),
];

pub const RESPONSE: &[ReceiveCheck] = &[
    (1, |call| call.host.given.no_room()),
    (2, |call| call.host.lent.bad_at.is_some()),
    (3, |call| call.host.given.no_interface()),
    (4, |call| call.host.given.wrong_time()),
    (5, |call| call.arrival.wrong_length(call.host.given.fault)),
    (6, |call| call.arrival.wrong_address(&call.host.given)),
    (7, |call| call.arrival.wrong_opcode()),
    (8, |call| call.arrival.wrong_rcode()),
    (9, |call| call.arrival.wrong_question_count()),
    (10, |call| call.arrival.no_question()),
    (15, is_unmatched),
    (16, |call| call.host.given.is_ours(&call.arrival.source)),
];

fn is_wrong_setting(setting: &Setting, fault: faults::Fault) -> bool {
    let group = interfaces::is_group(&setting.address, fault) && fault != faults::GROUP_ADDRESS_SET_UP;
    interfaces::is_used(setting) && (group || !matches!(setting.interval, 100 | 1_000))
}

fn is_busy(call: &HostView) -> bool {
    match call.standing {
        Standing::Off => false,
        Standing::Stopped { .. } => call.given.fault == faults::STOPPED_BUSY,
        _ => true,
    }
}

/// Whether the name was lost here and is still to be left alone.
fn is_too_soon(call: &HostView) -> bool {
    let Standing::Stopped { until } = call.standing else { return false };
    let time = call.given.prefix.time;
    match call.given.fault {
        faults::TOO_SOON_AT_END => time <= until,
        faults::TOO_SOON_IF_UNIQUE => time < until && !call.is_shared(),
        _ => time < until,
    }
}

fn has_wrong_query_counts(call: &ReceiveView) -> bool {
    let header = &call.arrival.message.header;
    let additionals = call.host.given.fault == faults::QUERY_ARCOUNT && header.additionals != 0;
    call.arrival.wrong_question_count() || header.answers != 0 || header.authorities != 0 || additionals
}

fn has_wrong_class(call: &ReceiveView) -> bool {
    let question = call.arrival.message.question.as_ref();
    question.is_none_or(|question| !matches!(question.class, CLASS_IN | ANY))
}

/// Whether the name has records, and none is valid on the call's interface.
fn has_none_here(call: &HostView) -> bool {
    let interface = call.given.prefix.interface;
    let named = call.number.and_then(|number| call.lent.names.get(number));
    named.is_some_and(|named| {
        !named.records(|_| true).is_empty() && named.records(|run| run.on.contains(&interface)).is_empty()
    })
}

fn is_wrong_notice(call: &ReceiveView) -> bool {
    let given = &call.host.given;
    let from_us = given.is_ours(&call.arrival.source) && given.fault != faults::NOTICE_FROM_US;
    call.arrival.message.header.conflict && (call.host.standing != Standing::Unique || from_us)
}

/// Whether no check of the name that the question names waits for this ID, type and class.
fn is_unmatched(call: &ReceiveView) -> bool {
    let message = &call.arrival.message;
    let Some(question) = &message.question else { return true };
    let (id, qtype, class) = match call.host.standing {
        Standing::Verifying { first_id, .. } => (first_id, ANY, CLASS_IN),
        Standing::Defending { id, qtype, class, .. } => (id, qtype, class),
        _ => return true,
    };
    let class_differs = question.class != class && call.host.given.fault != faults::RESPONSE_CLASS;
    message.header.id != id || question.qtype != qtype || class_differs
}
