//! How a table of checks is run, and the tests that several calls have in common.

use crate::calls::{Address, Prefix, Setting};
use crate::faults::{self, Fault};
use crate::interfaces;
use crate::message::{Message, HEADER};

const LEAST_ROOM: u32 = 512;
const MOST_ROOM: u32 = 65_536;
/// The last time of the clock's range.
pub const LATEST: u64 = (1 << 48) - 1;
const LONGEST_DATAGRAM: usize = 9_194;

/// The number of the first test that fires, in the table's order. A planted fault names a number that is looked at
/// after all others; there is no number 0.
pub fn first<V, T: Fn(&V) -> bool>(checks: &[(u8, T)], view: &V, last: u8) -> Option<u8> {
    let fires = |late: bool| checks.iter().find(|(no, test)| (*no == last) == late && test(view));
    fires(false).or_else(|| fires(true)).map(|(no, _)| *no)
}

/// What every call is given: its prefix, the settings, and the last accepted time.
pub struct Given<'a> {
    pub fault: Fault,
    pub prefix: &'a Prefix,
    pub settings: &'a [Setting; 4],
    /// The setting of the call's interface.
    pub setting: Setting,
    /// The last accepted time; 0 for a call that has no earlier one.
    pub earliest: u64,
}

impl Given<'_> {
    pub fn no_room(&self) -> bool {
        let least = match self.fault {
            faults::ROOM_511 => LEAST_ROOM - 1,
            faults::ROOM_512_REFUSED => LEAST_ROOM + 1,
            _ => LEAST_ROOM,
        };
        self.prefix.room.min(MOST_ROOM) < least
    }

    pub fn no_interface(&self) -> bool {
        !interfaces::is_used(&self.setting)
    }

    pub fn wrong_time(&self) -> bool {
        let latest = LATEST + u64::from(self.fault == faults::CLOCK_2_48);
        let time = self.prefix.time;
        let same_refused = self.fault == faults::CLOCK_SAME_TIME && time == self.earliest && time != 0;
        time > latest || time < self.earliest || same_refused
    }

    pub fn is_ours(&self, address: &Address) -> bool {
        match self.fault {
            faults::OWN_THIS_INTERFACE => interfaces::same(&self.setting.address, address),
            faults::OWN_ALL_OCTETS => self.settings.iter().any(|setting| setting.address == *address),
            _ => interfaces::is_ours(self.settings, address),
        }
    }
}

/// A received datagram, decoded before any rule is looked at.
pub struct Arrival {
    pub source: Address,
    pub port: u16,
    pub destination: Address,
    /// The datagram's octets.
    pub length: usize,
    pub message: Message,
}

impl Arrival {
    pub fn new(source: &Address, port: u16, destination: &Address, octets: &[u8], fault: Fault) -> Arrival {
        let message = Message::decode(octets, fault);
        Arrival { source: *source, port, destination: *destination, length: octets.len(), message }
    }

    pub fn wrong_length(&self, fault: Fault) -> bool {
        let shortest = HEADER + usize::from(fault == faults::LENGTH_12_REFUSED);
        let longest = LONGEST_DATAGRAM + usize::from(fault == faults::LENGTH_9195);
        self.length < shortest || self.length > longest
    }

    /// A query is sent to the group, a response is not, and both addresses are of the interface's family.
    pub fn wrong_address(&self, given: &Given) -> bool {
        let family = given.setting.address.family;
        let to_group = interfaces::is_group(&self.destination, given.fault);
        let astray = match self.message.header.response {
            true => to_group && given.fault != faults::RESPONSE_TO_GROUP,
            false => !to_group,
        };
        self.source.family != family || self.destination.family != family || astray
    }

    pub fn wrong_opcode(&self) -> bool {
        self.message.header.opcode != 0
    }

    pub fn wrong_rcode(&self) -> bool {
        self.message.header.rcode != 0
    }

    pub fn wrong_question_count(&self) -> bool {
        self.message.header.questions != 1
    }

    pub fn no_question(&self) -> bool {
        self.message.question.is_none()
    }
}
