//! A lookup: what it was started with, its last accepted time, and its accepted calls, from which its phase, its number
//! of sends and its due time follow.

use crate::calls::{Prefix, Setting};
use crate::checks::{first, Arrival, Given};
use crate::faults::{self, Fault};
use crate::interfaces;
use crate::lines::Outcome;
use crate::message::{Message, Question, CLASS_IN, HEADER};
use crate::names::{self, Labels};

/// The query is sent this many times in all.
const SENDS: usize = 3;

/// An accepted call of the lookup; quiet ticks are left out.
#[derive(Clone, PartialEq, Eq, Debug)]
enum Accepted {
    Start {
        time: u64,
    },
    /// A tick when due.
    Tick {
        time: u64,
    },
    Response {
        conflict: bool,
    },
}

/// What the lookup does, as it follows from its accepted calls.
#[derive(Clone, Copy, PartialEq, Eq, Debug)]
enum Phase {
    Asking {
        sends: usize,
        due: u64,
    },
    /// A C-set response has come: no more repeats, and it ends as found when due.
    Collecting {
        due: u64,
    },
    Ended,
}

pub struct Lookup {
    settings: [Setting; 4],
    interface: u8,
    /// The last accepted time.
    clock: u64,
    id: u16,
    question: Question,
    calls: Vec<Accepted>,
}

/// What a start is given beside its prefix and the settings.
pub struct Asked<'a> {
    pub permission: u8,
    pub qtype: u16,
    pub name: &'a [u8],
}

/// The labels of a start's name, and whether the name is good: not the root, and with nothing left over.
struct AskedName {
    labels: Labels,
    good: bool,
}

/// What the checks of a lookup's start look at.
struct AskView<'a> {
    given: Given<'a>,
    /// None if the octets begin with no name.
    name: Option<&'a AskedName>,
    permission: u8,
}

/// What the checks of a datagram to a lookup look at.
struct AnswerView<'a> {
    given: Given<'a>,
    arrival: &'a Arrival,
    lookup: &'a Lookup,
}

type AskCheck = (u8, fn(&AskView) -> bool);
type TickCheck = (u8, fn(&Given) -> bool);
type AnswerCheck = (u8, fn(&AnswerView) -> bool);

const ASK: &[AskCheck] = &[
    (1, |call| call.given.no_room()),
    (3, |call| call.given.no_interface()),
    (4, |call| call.given.wrong_time()),
    (10, |call| !call.name.is_some_and(|name| name.good)),
    (22, |call| call.name.is_some_and(|name| is_several(&name.labels, call.permission, call.given.fault))),
];

const ASK_TICK: &[TickCheck] = &[(1, |given| given.no_room()), (4, |given| given.wrong_time())];

const ANSWER: &[AnswerCheck] = &[
    (1, |call| call.given.no_room()),
    (3, |call| call.given.no_interface()),
    (4, |call| call.given.wrong_time()),
    (5, |call| call.arrival.wrong_length(call.given.fault)),
    (15, |call| !call.arrival.message.header.response),
    (6, |call| call.arrival.wrong_address(&call.given)),
    (7, |call| call.arrival.wrong_opcode()),
    (8, |call| call.arrival.wrong_rcode()),
    (9, |call| call.arrival.wrong_question_count()),
    (10, |call| call.arrival.no_question()),
    (15, |call| !call.lookup.waits_for(&call.arrival.message, call.given.fault)),
    (16, |call| call.given.is_ours(&call.arrival.source)),
    (17, |call| call.arrival.message.header.tentative && call.given.fault != faults::LOOKUP_TAKES_T),
    (18, |call| call.arrival.message.has_bad_answer()),
];

impl Lookup {
    /// What a refused start gives.
    pub fn ended() -> Lookup {
        let question = Question { name: Labels::new(), qtype: 0, class: 0 };
        Lookup { settings: [Setting::UNUSED; 4], interface: 0, clock: 0, id: 0, question, calls: Vec::new() }
    }

    pub fn start(
        settings: &[Setting; 4],
        prefix: &Prefix,
        asked: &Asked,
        fault: Fault,
    ) -> Result<(Lookup, Outcome), Outcome> {
        let setting = interfaces::setting(settings, prefix.interface);
        let given = Given { fault, prefix, settings, setting, earliest: 0 };
        let name = asked_name(asked.name, fault);
        let view = AskView { given, name: name.as_ref(), permission: asked.permission };
        let last = if fault == faults::SEVERAL_BEFORE_QUESTION { 10 } else { 0 };
        if let Some(no) = first(ASK, &view, last) {
            return Err(Outcome::Refused { no, at: None });
        }
        let labels = name.map_or(Labels::new(), |name| name.labels);
        let question = Question { name: labels, qtype: asked.qtype, class: CLASS_IN };
        let lookup = Lookup {
            settings: *settings,
            interface: prefix.interface,
            clock: prefix.time,
            id: prefix.id,
            question,
            calls: vec![Accepted::Start { time: prefix.time }],
        };
        let query = lookup.query();
        Ok((lookup, query))
    }

    pub fn receive(&mut self, prefix: &Prefix, arrival: &Arrival, fault: Fault) -> Outcome {
        let view = AnswerView { given: self.given(prefix, fault), arrival, lookup: self };
        let last = if fault == faults::LOOKUP_MATCH_LAST { 15 } else { 0 };
        if let Some(no) = first(ANSWER, &view, last) {
            return Outcome::Refused { no, at: None };
        }
        self.clock = prefix.time;
        let message = &arrival.message;
        let conflict = message.header.conflict;
        self.calls.push(Accepted::Response { conflict });
        let at = HEADER + message.question.as_ref().map_or(0, Question::length);
        let an = message.header.answers;
        match self.phase(fault) {
            Phase::Ended if !conflict => Outcome::Found { place: Some((at, an)) },
            _ => Outcome::Part { at, an },
        }
    }

    pub fn tick(&mut self, prefix: &Prefix, fault: Fault) -> Outcome {
        if let Some(no) = first(ASK_TICK, &self.given(prefix, fault), 0) {
            return Outcome::Refused { no, at: None };
        }
        self.clock = prefix.time;
        let outcome = match self.phase(fault) {
            Phase::Asking { sends, due } if due <= prefix.time && sends < SENDS => self.query(),
            Phase::Asking { due, .. } if due <= prefix.time => Outcome::NoSuchName,
            Phase::Collecting { due } if due <= prefix.time => Outcome::Found { place: None },
            _ => return Outcome::Quiet,
        };
        self.calls.push(Accepted::Tick { time: prefix.time });
        outcome
    }

    fn given<'a>(&'a self, prefix: &'a Prefix, fault: Fault) -> Given<'a> {
        let setting = interfaces::setting(&self.settings, self.interface);
        Given { fault, prefix, settings: &self.settings, setting, earliest: self.clock }
    }

    /// The query, the same at each send.
    fn query(&self) -> Outcome {
        let to = interfaces::group_endpoint(&interfaces::setting(&self.settings, self.interface));
        Outcome::Query { to, octets: Message::query(self.id, self.question.clone()).encode(), name: None }
    }

    fn phase(&self, fault: Fault) -> Phase {
        let response = self.calls.iter().position(|call| matches!(call, Accepted::Response { .. }));
        let (before, after) = self.calls.split_at(response.unwrap_or(self.calls.len()));
        let Some(Accepted::Start { time } | Accepted::Tick { time }) = before.last() else { return Phase::Ended };
        let due = time + self.interval(fault);
        let over = |call: &Accepted| match call {
            Accepted::Response { conflict } => !conflict || fault == faults::LOOKUP_ENDS_ON_PART,
            _ => true,
        };
        if after.iter().any(over) || before.len() > SENDS {
            return Phase::Ended;
        }
        match response {
            Some(_) => Phase::Collecting { due },
            // A start and the ticks after it have sent once each.
            None => Phase::Asking { sends: before.len(), due },
        }
    }

    fn interval(&self, fault: Fault) -> u64 {
        let setting = interfaces::setting(&self.settings, self.interface);
        if fault == faults::LOOKUP_ODD_INTERVAL {
            return u64::from(setting.interval);
        }
        interfaces::interval(&setting)
    }

    /// Whether the lookup waits for a response with this ID and question; after a C-set one it waits for such alone.
    fn waits_for(&self, message: &Message, fault: Fault) -> bool {
        let open = match self.phase(fault) {
            Phase::Asking { .. } => true,
            Phase::Collecting { .. } => message.header.conflict || fault == faults::LOOKUP_C_CLEAR_LATER,
            Phase::Ended => false,
        };
        let asked = message.question.as_ref().is_some_and(|question| {
            names::equal(&question.name, &self.question.name, fault)
                && (question.qtype, question.class) == (self.question.qtype, self.question.class)
        });
        open && message.header.id == self.id && asked
    }
}

fn asked_name(octets: &[u8], fault: Fault) -> Option<AskedName> {
    let (labels, next) = names::read_plain(octets, 0)?;
    let whole = next == octets.len() || fault == faults::LOOKUP_LEFT_OVER;
    let good = whole && !labels.is_empty();
    Some(AskedName { labels, good })
}

/// RFC 4795, section 3: without permission, only a name of one label or one that stands for an address is asked for.
fn is_several(labels: &Labels, permission: u8, fault: Fault) -> bool {
    let permitted = match fault {
        faults::PERMISSION_INVERTED => permission == 0,
        faults::PERMISSION_1 => permission == 1,
        _ => permission != 0,
    };
    let most = if fault == faults::SEVERAL_3 { 2 } else { 1 };
    labels.len() > most && !permitted && !names::is_reverse(labels, fault)
}

#[cfg(test)]
mod tests {
    use super::*;

    /// The refusal of a start with this permission, name, time and room; 0 if it is accepted.
    fn refusal(permission: u8, name: &[u8], time: u64, room: u32, fault: Fault) -> u8 {
        let mut settings = [Setting::UNUSED; 4];
        settings[0].address.family = 4;
        let prefix = Prefix { interface: 0, time, id: 1, room };
        match Lookup::start(&settings, &prefix, &Asked { permission, qtype: 1, name }, fault) {
            Err(Outcome::Refused { no, .. }) => no,
            _ => 0,
        }
    }

    #[test]
    fn several_labels_need_permission() {
        let asked = |permission, name| refusal(permission, name, 0, 512, faults::NONE);
        assert_eq!([0, 1, 255].map(|permission| asked(permission, b"\x01a\0")), [0; 3]);
        assert_eq!([0, 1, 2, 255].map(|permission| asked(permission, b"\x01a\x01b\0")), [22, 0, 0, 0]);
        assert_eq!([0, 1].map(|permission| asked(permission, b"\x01a\x03Ip6\x04arpA\0")), [0; 2]);
        assert_eq!([0, 1].map(|permission| asked(permission, b"\x03ip6\x04arpa\0")), [22, 0]);
        assert_eq!([0, 1].map(|permission| asked(permission, b"\x01a\x01b\0\0")), [10; 2]);
        assert_eq!(asked(0, b"\x0ax\x03ip6\x04arpa\0"), 0);
    }

    #[test]
    fn several_labels_are_looked_at_last() {
        let several = b"\x01a\x01b\0";
        assert_eq!(refusal(0, several, 1 << 48, 511, faults::NONE), 1);
        assert_eq!(refusal(0, several, 1 << 48, 512, faults::NONE), 4);
        assert_eq!(refusal(0, b"\x01a\x01b\0\0", 0, 512, faults::SEVERAL_BEFORE_QUESTION), 22);
        assert_eq!(refusal(0, several, 0, 512, faults::SEVERAL_3), 0);
        assert_eq!([0, 1].map(|no| refusal(no, several, 0, 512, faults::PERMISSION_INVERTED)), [0, 22]);
        assert_eq!([1, 2].map(|no| refusal(no, several, 0, 512, faults::PERMISSION_1)), [0, 22]);
    }
}
