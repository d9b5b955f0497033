//! A host: its set-up, its last accepted time, and for each interface and name number the accepted calls that concern
//! them.

use crate::calls::{Prefix, Setting};
use crate::checks::{first, Arrival, Given};
use crate::faults::{self, Fault};
use crate::history::{Accepted, History, Standing};
use crate::host_checks::{HostView, ReceiveView, QUERY, RESPONSE, SET_UP, START, TICK};
use crate::interfaces;
use crate::lines::{Endpoint, Outcome};
use crate::message::{Message, Question, ANY, CLASS_IN};
use crate::reply::reply;
use crate::table::Lent;

/// A name is asked for this many times before it is Unique.
const SENDS: usize = 3;

pub struct Host {
    pub settings: [Setting; 4],
    /// The last accepted time.
    clock: u64,
    /// By interface, then by the name's number in the table.
    histories: [[History; 8]; 4],
}

impl Host {
    /// What a refused set-up gives.
    pub fn unused() -> Host {
        Host { settings: [Setting::UNUSED; 4], clock: 0, histories: Default::default() }
    }

    pub fn set_up(lent: &Lent, prefix: &Prefix, settings: &[Setting; 4], fault: Fault) -> Result<Host, Outcome> {
        let given = Given { fault, prefix, settings, setting: Setting::UNUSED, earliest: 0 };
        let view = HostView { given, lent, number: None, standing: Standing::Off };
        match first(SET_UP, &view, 0) {
            Some(no) => Err(refused(no, lent)),
            None => Ok(Host { settings: *settings, clock: prefix.time, histories: Default::default() }),
        }
    }

    pub fn start(&mut self, lent: &Lent, prefix: &Prefix, name: u8, fault: Fault) -> Outcome {
        let number = usize::from(name);
        let known = Some(number).filter(|number| *number < lent.names.len());
        let last = if fault == faults::START_TIME_LAST { 4 } else { 0 };
        // States go by the number, whether the table has it or not.
        let view = HostView { number: known, ..self.view(lent, prefix, Some(number), fault) };
        if let Some(no) = first(START, &view, last) {
            return self.refuse(lent, prefix, no, fault);
        }
        let shared = lent.names[number].shared;
        self.clock = prefix.time;
        self.add(prefix, number, Accepted::Start { time: prefix.time, id: prefix.id, shared });
        if shared {
            return Outcome::Shared { name };
        }
        self.check_query(lent, prefix, number, prefix.id)
    }

    /// Serves the lowest-numbered name that is due.
    pub fn tick(&mut self, lent: &Lent, prefix: &Prefix, fault: Fault) -> Outcome {
        let last = if fault == faults::TICK_TABLE_LAST { 2 } else { 0 };
        if let Some(no) = first(TICK, &self.view(lent, prefix, None, fault), last) {
            return self.refuse(lent, prefix, no, fault);
        }
        let mut due = self.due(lent, prefix, fault).into_iter();
        let served = if fault == faults::SERVES_HIGHEST { due.next_back() } else { due.next() };
        if served.is_some() || fault != faults::QUIET_KEEPS_CLOCK {
            self.clock = prefix.time;
        }
        let Some((place, number, standing)) = served else { return Outcome::Quiet };
        self.add(&place, number, Accepted::Tick { time: prefix.time });
        match standing {
            Standing::Verifying { first_id, sends, .. } if sends < SENDS => {
                let id = if fault == faults::REPEAT_CALL_ID { prefix.id } else { first_id };
                self.check_query(lent, &place, number, id)
            }
            _ => Outcome::Unique { name: number as u8 },
        }
    }

    /// The names that are due on the call's interface, each with the call's prefix there; by a planted fault those of
    /// every interface.
    fn due(&self, lent: &Lent, prefix: &Prefix, fault: Fault) -> Vec<(Prefix, usize, Standing)> {
        let here = prefix.interface..=prefix.interface;
        let interfaces = if fault == faults::SERVES_ANY_INTERFACE { 0..=3 } else { here };
        let places = interfaces.map(|interface| Prefix { interface, ..*prefix });
        places
            .flat_map(|place| (0..lent.names.len()).map(move |number| (place, number)))
            .map(|(place, number)| (place, number, self.standing(&place, number, fault)))
            .filter(|(_, _, standing)| standing.is_due(prefix.time, fault))
            .collect()
    }

    pub fn receive(&mut self, lent: &Lent, prefix: &Prefix, arrival: &Arrival, fault: Fault) -> Outcome {
        let message = &arrival.message;
        let number = message.question.as_ref().and_then(|question| lent.number_of(&question.name, fault));
        let view = ReceiveView { host: self.view(lent, prefix, number, fault), arrival };
        let refusal = match message.header.response {
            true => first(RESPONSE, &view, if fault == faults::OWN_FIRST { 15 } else { 0 }),
            false => first(QUERY, &view, if fault == faults::CLASS_LAST { 11 } else { 0 }),
        };
        let standing = view.host.standing;
        if let Some(no) = refusal {
            if fault == faults::REFUSAL_SETS_CLOCK && no > 4 {
                self.clock = prefix.time;
            }
            return self.refuse(lent, prefix, no, fault);
        }
        // What the checks let by has a question for a name of the table.
        let (Some(number), Some(question)) = (number, &message.question) else { return Outcome::Quiet };
        self.clock = prefix.time;
        match (message.header.response, message.header.conflict) {
            (true, _) => self.decide(prefix, number, arrival, fault),
            (false, true) => self.defend(prefix, number, question, fault),
            (false, false) => {
                let (id, named) = (message.header.id, &lent.names[number]);
                let octets = reply(id, question, named, prefix.interface, &standing, fault).encode();
                Outcome::Reply { to: Endpoint { address: arrival.source, port: arrival.port }, octets }
            }
        }
    }

    /// A refusal changes nothing, but for a planted fault.
    fn refuse(&mut self, lent: &Lent, prefix: &Prefix, no: u8, fault: Fault) -> Outcome {
        let sets_clock = match fault {
            faults::REFUSED_TIME_SETS_CLOCK => no == 4,
            faults::TOO_SOON_SETS_CLOCK => no == 21,
            _ => false,
        };
        if sets_clock {
            self.clock = prefix.time;
        }
        refused(no, lent)
    }

    /// A response to a check or a defence: whether the name stops follows from the list with the response in it.
    fn decide(&mut self, prefix: &Prefix, number: usize, arrival: &Arrival, fault: Fault) -> Outcome {
        let (tentative, claim) = (arrival.message.header.tentative, arrival.message.claim(fault));
        self.add(prefix, number, Accepted::Response { time: prefix.time, tentative, source: arrival.source, claim });
        match self.standing(prefix, number, fault) {
            Standing::Stopped { .. } => Outcome::Stopped { name: number as u8 },
            _ => Outcome::Kept { name: number as u8 },
        }
    }

    /// A notice of a conflict: our own query for the same question goes out.
    fn defend(&mut self, prefix: &Prefix, number: usize, question: &Question, fault: Fault) -> Outcome {
        let mut question = question.clone();
        if fault == faults::DEFENCE_TYPE_255 {
            question.qtype = ANY;
        }
        let (qtype, class) = (question.qtype, question.class);
        self.add(prefix, number, Accepted::Notice { time: prefix.time, id: prefix.id, qtype, class });
        self.query(prefix, number, prefix.id, question)
    }

    /// The query of a name's check, with the name as in the table.
    fn check_query(&self, lent: &Lent, prefix: &Prefix, number: usize, id: u16) -> Outcome {
        let name = lent.names[number].labels.clone();
        self.query(prefix, number, id, Question { name, qtype: ANY, class: CLASS_IN })
    }

    fn query(&self, prefix: &Prefix, number: usize, id: u16, question: Question) -> Outcome {
        let to = interfaces::group_endpoint(&interfaces::setting(&self.settings, prefix.interface));
        Outcome::Query { to, octets: Message::query(id, question).encode(), name: Some(number as u8) }
    }

    fn view<'a>(&'a self, lent: &'a Lent, prefix: &'a Prefix, number: Option<usize>, fault: Fault) -> HostView<'a> {
        let setting = interfaces::setting(&self.settings, prefix.interface);
        let given = Given { fault, prefix, settings: &self.settings, setting, earliest: self.clock };
        let standing = number.map_or(Standing::Off, |number| match fault {
            faults::STATE_OF_ANY_INTERFACE => self.standing_anywhere(prefix, number, fault),
            _ => self.standing(prefix, number, fault),
        });
        HostView { given, lent, number, standing }
    }

    /// What the name with this number is on the call's interface.
    fn standing(&self, prefix: &Prefix, number: usize, fault: Fault) -> Standing {
        let setting = interfaces::setting(&self.settings, prefix.interface);
        let history = self.histories.get(usize::from(prefix.interface)).and_then(|names| names.get(number));
        history.map_or(Standing::Off, |history| history.standing(&setting, fault))
    }

    /// What a planted fault takes the name for.
    fn standing_anywhere(&self, prefix: &Prefix, number: usize, fault: Fault) -> Standing {
        let on = |interface| self.standing(&Prefix { interface, ..*prefix }, number, fault);
        (0..=3).map(on).find(|standing| *standing != Standing::Off).unwrap_or(Standing::Off)
    }

    fn add(&mut self, prefix: &Prefix, number: usize, call: Accepted) {
        let history = self.histories.get_mut(usize::from(prefix.interface)).and_then(|names| names.get_mut(number));
        if let Some(history) = history {
            history.add(call);
        }
    }
}

fn refused(no: u8, lent: &Lent) -> Outcome {
    Outcome::Refused { no, at: lent.bad_at.filter(|_| no == 2) }
}
