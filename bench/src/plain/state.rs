//! Addresses, settings, the state of a host and of a lookup, and what a call comes to.

use super::refusal::Refusal;

pub const INTERFACES: usize = 4;
pub const NAMES: usize = 8;
/// Octets of the output buffer that a call needs, which are also those of the longest reply.
pub const ROOM: usize = 512;
/// The latest time, in milliseconds.
pub const LATEST: u64 = (1 << 48) - 1;
pub const PORT: u16 = 5355;
/// How often a query is sent.
pub const SENDS: u8 = 3;

const GROUP_4: [u8; 16] = [224, 0, 0, 252, 0, 0, 0, 0, 0, 0, 0, 0, 0, 0, 0, 0];
const GROUP_6: [u8; 16] = [0xFF, 2, 0, 0, 0, 0, 0, 0, 0, 0, 0, 0, 0, 1, 0, 3];

/// Family 4 uses the first four octets. Any family but 4 and 6 is that of an unused interface.
#[derive(Clone, Copy, PartialEq, Eq, Debug, Default)]
pub struct Address {
    pub family: u8,
    pub octets: [u8; 16],
}

impl Address {
    #[inline]
    pub fn is_used(&self) -> bool {
        matches!(self.family, 4 | 6)
    }

    /// The octets that the family uses, as a number that keeps their order.
    #[inline]
    fn value(&self) -> u128 {
        let value = u128::from_be_bytes(self.octets);
        if self.family == 4 {
            value >> 96
        } else {
            value
        }
    }

    #[inline]
    pub fn is_same(&self, other: &Address) -> bool {
        self.family == other.family && self.value() == other.value()
    }

    #[inline]
    pub fn is_below(&self, other: &Address) -> bool {
        self.value() < other.value()
    }

    /// The group that LLMNR queries of a family go to.
    #[inline]
    pub fn group(family: u8) -> Address {
        Address { family, octets: if family == 4 { GROUP_4 } else { GROUP_6 } }
    }

    #[inline]
    pub fn is_group(&self) -> bool {
        self.is_used() && self.is_same(&Address::group(self.family))
    }
}

/// All zero where nothing is sent.
#[derive(Clone, Copy, PartialEq, Eq, Debug, Default)]
pub struct Endpoint {
    pub address: Address,
    pub port: u16,
}

impl Endpoint {
    #[inline]
    pub fn group(family: u8) -> Endpoint {
        Endpoint { address: Address::group(family), port: PORT }
    }
}

/// What an interface is set to: its address, and the repeat interval in milliseconds.
#[derive(Clone, Copy, PartialEq, Eq, Debug, Default)]
pub struct Setting {
    pub address: Address,
    pub interval: u16,
}

impl Setting {
    /// When a timer that is started now runs out.
    #[inline]
    pub fn due(&self, time: u64) -> u64 {
        time + if self.interval == 100 { 100 } else { 1_000 }
    }

    #[inline]
    pub fn is_bad(&self) -> bool {
        self.address.is_used() && (self.address.is_group() || !matches!(self.interval, 100 | 1_000))
    }
}

/// Whether an address is that of a used interface.
#[inline]
pub fn is_ours<'a>(settings: impl IntoIterator<Item = &'a Setting>, address: &Address) -> bool {
    settings.into_iter().any(|setting| setting.address.is_used() && setting.address.is_same(address))
}

/// The state of a name on an interface.
#[derive(Clone, Copy, PartialEq, Eq, Debug, Default)]
pub enum NameState {
    #[default]
    Off,
    Verifying {
        sends: u8,
        id: u16,
        due: u64,
    },
    Unique,
    Defending {
        id: u16,
        qtype: u16,
        qclass: u16,
        due: u64,
    },
    /// Not to be started again before.
    Stopped {
        until: u64,
    },
    Shared,
}

#[derive(Clone, PartialEq, Eq, Debug, Default)]
pub struct Interface {
    pub setting: Setting,
    pub names: [NameState; NAMES],
}

#[derive(Clone, PartialEq, Eq, Debug, Default)]
pub struct Host {
    pub interfaces: [Interface; INTERFACES],
    /// The last accepted time.
    pub clock: u64,
}

#[derive(Clone, Copy, PartialEq, Eq, Debug)]
pub enum Phase {
    Asking { sends: u8, due: u64 },
    Collecting { due: u64 },
    Ended,
}

#[derive(Clone, PartialEq, Eq, Debug)]
pub struct Lookup {
    pub settings: [Setting; INTERFACES],
    pub interface: usize,
    pub name: [u8; 255],
    pub len: usize,
    pub qtype: u16,
    pub id: u16,
    pub clock: u64,
    pub phase: Phase,
}

/// What a refused start gives.
impl Default for Lookup {
    #[inline]
    fn default() -> Lookup {
        let settings = [Setting::default(); INTERFACES];
        Lookup { settings, interface: 0, name: [0; 255], len: 0, qtype: 0, id: 0, clock: 0, phase: Phase::Ended }
    }
}

/// What every call of a host is given.
#[derive(Clone, Copy)]
pub struct Call<'a> {
    pub table: &'a [u8],
    pub interface: usize,
    pub time: u64,
    pub id: u16,
}

/// What a lookup is started with.
#[derive(Clone, Copy)]
pub struct Asked<'a> {
    pub settings: &'a [Setting; INTERFACES],
    pub interface: usize,
    pub name: &'a [u8],
    /// Whether a name of several labels may be asked for.
    pub permitted: bool,
    pub qtype: u16,
    pub time: u64,
    pub id: u16,
}

/// A datagram that came in.
#[derive(Clone, Copy)]
pub struct Arrival<'a> {
    pub from: Endpoint,
    pub to: Address,
    pub octets: &'a [u8],
}

#[derive(Clone, Copy, PartialEq, Eq, Debug)]
pub enum Outcome {
    Refused(Refusal),
    Ready,
    Quiet,
    Kept { name: usize },
    Query { name: usize, len: usize },
    Reply { len: usize },
    Unique { name: usize },
    Shared { name: usize },
    Stopped { name: usize },
}

#[derive(Clone, Copy, PartialEq, Eq, Debug)]
pub enum LookupOutcome {
    Refused(Refusal),
    Quiet,
    Query {
        len: usize,
    },
    /// A response with C set, of which more may come: where its answers begin, and how many there are.
    Part {
        at: usize,
        answers: u16,
    },
    Found {
        at: usize,
        answers: u16,
    },
    /// The time for responses with C set is over.
    Collected,
    NoSuchName,
}
