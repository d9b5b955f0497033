//! The cases that are measured: for each a table, a state and the call that is made on it again and again.

use bench::plain::state::{
    Address, Arrival, Call, Endpoint, Host, Interface, Lookup, NameState, Phase, Setting, INTERFACES, NAMES,
};

/// The name `scale3` with the address 192.0.2.17.
const SMALL_TABLE: &[u8] = b"\x0c\x00\x01\x00\x06scale3\x00\x08\x00\x03\x00\xc0\x00\x02\x11";
const INTERFACE: usize = 0;
const TIME: u64 = 1_000_000;
const OWN: [u8; 4] = [192, 0, 2, 17];
const OTHER: [u8; 4] = [192, 0, 2, 99];
const GROUP: [u8; 4] = [224, 0, 0, 252];
const A: u16 = 1;
const AAAA: u16 = 28;
const LONGEST_DATAGRAM: usize = 9_194;
/// Octets that a name of the large tables takes up with its 24 addresses.
const NAME_WITH_RECORDS: usize = 512;

#[derive(Clone, Copy, PartialEq, Eq)]
pub enum Kind {
    Receive,
    Tick,
    /// A datagram to a lookup.
    Answer,
}

pub struct Case {
    pub key: &'static str,
    pub title: String,
    pub kind: Kind,
    pub table: Vec<u8>,
    pub datagram: Vec<u8>,
    /// The state of each name of the table on each used interface before each call.
    pub state: NameState,
    /// Whether a call changes the name's state, so that it has to be set back before the next one.
    pub changes: bool,
    from: Endpoint,
    to: Address,
}

fn address(octets: [u8; 4]) -> Address {
    let mut address = Address { family: 4, octets: [0; 16] };
    address.octets[..4].copy_from_slice(&octets);
    address
}

/// An IPv4 and an IPv6 interface.
fn settings() -> [Setting; INTERFACES] {
    let mut settings = [Setting::default(); INTERFACES];
    settings[0] = Setting { address: address(OWN), interval: 100 };
    let octets = [0x20, 1, 0x0D, 0xB8, 0, 0, 0, 0, 0, 0, 0, 0, 0, 0, 0, 0x17];
    settings[1] = Setting { address: Address { family: 6, octets }, interval: 1_000 };
    settings
}

/// A query, or the beginning of a response.
fn message(flags: u16, answers: u8, name: &[u8], qtype: u16) -> Vec<u8> {
    let [high, low] = flags.to_be_bytes();
    let mut octets = vec![0x12, 0x34, high, low, 0, 1, 0, answers, 0, 0, 0, 0];
    octets.extend(name);
    octets.extend(qtype.to_be_bytes());
    octets.extend([0, 1]);
    octets
}

/// A name of 28 octets; names with different numbers differ in the last octet.
fn long_name(number: u8) -> Vec<u8> {
    [b"\x1aweighing-indicator-hall-2".as_slice(), &[b'a' + number, 0]].concat()
}

/// A good table: for each 512 octets a name and its 24 AAAA records.
pub fn large_table(octets: usize) -> Vec<u8> {
    let mut table = Vec::new();
    for number in 0..(octets / NAME_WITH_RECORDS) as u8 {
        table.extend([32, 0, 1, 0]);
        table.extend(long_name(number));
        for record in 0..24 {
            table.extend([20, 0, 4, 0]);
            table.extend([0x20, 1, 0x0D, 0xB8, 0, 0, 0, 0, 0, 0, 0, 0, 0, 0, number, record]);
        }
    }
    table
}

/// Octets without any order, the same in every run.
fn junk(len: usize) -> Vec<u8> {
    let mut word = 0x9E37_79B9_7F4A_7C15_u64;
    let mut next = || {
        word ^= word << 13;
        word ^= word >> 7;
        word ^= word << 17;
        (word >> 32) as u8
    };
    (0..len).map(|_| next()).collect()
}

/// Begins as a query does; its name is labels of one octet without an end.
fn endless_name() -> Vec<u8> {
    let mut octets = message(0, 0, &[], 0)[..12].to_vec();
    octets.extend([1, b'a'].repeat((LONGEST_DATAGRAM - 12) / 2));
    octets
}

impl Case {
    fn new(key: &'static str, title: &str, table: &[u8], datagram: Vec<u8>) -> Case {
        Case {
            key,
            title: title.to_string(),
            kind: Kind::Receive,
            table: table.to_vec(),
            datagram,
            state: NameState::Unique,
            changes: false,
            from: Endpoint { address: address(OTHER), port: 49_152 },
            to: address(GROUP),
        }
    }

    /// A tick with nothing due.
    pub fn quiet_tick(key: &'static str, title: &str, table: &[u8]) -> Case {
        Case { kind: Kind::Tick, ..Case::new(key, title, table, Vec::new()) }
    }

    /// A query for a name that the table has not.
    pub fn other_name(key: &'static str, title: &str, table: &[u8]) -> Case {
        Case::new(key, title, table, message(0, 0, &long_name(25), AAAA))
    }

    /// A query with C set for a name that the host owns.
    fn notification(key: &'static str, title: &str) -> Case {
        let query = message(0x0400, 0, b"\x06scale3\x00", A);
        Case { changes: true, ..Case::new(key, title, SMALL_TABLE, query) }
    }

    /// A response with the address of the name that a lookup asks for.
    fn answer(key: &'static str, title: &str) -> Case {
        let mut octets = message(0x8000, 1, b"\x06scale3\x00", A);
        octets.extend([0xC0, 12, 0, 1, 0, 1, 0, 0, 0, 30, 0, 4, 192, 0, 2, 99]);
        Case { kind: Kind::Answer, to: address(OWN), ..Case::new(key, title, SMALL_TABLE, octets) }
    }

    pub fn host(&self) -> Host {
        let count = self.table.chunks(NAME_WITH_RECORDS).count();
        let mut started = [NameState::Off; NAMES];
        started[..count].fill(self.state);
        let interfaces = settings().map(|setting| {
            let names = if setting.address.is_used() { started } else { [NameState::Off; NAMES] };
            Interface { setting, names }
        });
        Host { interfaces, clock: TIME }
    }

    pub fn lookup(&self) -> Lookup {
        let mut lookup = Lookup { settings: settings(), interface: INTERFACE, len: 8, ..Lookup::default() };
        lookup.name[..8].copy_from_slice(b"\x06scale3\x00");
        Lookup { qtype: A, id: 0x1234, clock: TIME, phase: self.phase(), ..lookup }
    }

    /// The phase of the lookup before each call.
    pub fn phase(&self) -> Phase {
        Phase::Asking { sends: 1, due: TIME + 100 }
    }

    pub fn call(&self) -> Call<'_> {
        Call { table: &self.table, interface: INTERFACE, time: TIME, id: 7 }
    }

    pub fn arrival(&self) -> Arrival<'_> {
        Arrival { from: self.from, to: self.to, octets: &self.datagram }
    }
}

/// The cases of the table of figures.
pub fn all() -> Vec<Case> {
    let small = SMALL_TABLE;
    let large = &large_table(4_096);
    let scale3 = b"\x06scale3\x00";
    vec![
        Case::new("answered", "A query answered, 20-octet table", small, message(0, 0, scale3, A)),
        Case::new("other", "query for another name", small, message(0, 0, b"\x06scale4\x00", A)),
        Case::notification("notification", "conflict notification, defended"),
        Case::new("short", "datagram of 11 octets, refused", small, junk(11)),
        Case::new("junk", "9,194 octets of junk, refused", small, junk(LONGEST_DATAGRAM)),
        Case::new("endless", "9,194 octets, name without end", small, endless_name()),
        Case::quiet_tick("tick", "tick with nothing due", small),
        Case::answer("lookup", "response to a lookup"),
        Case::new("full-cut", "4,096-octet table: answered, cut", large, message(0, 0, &long_name(7), AAAA)),
        Case::other_name("full-other", "4,096-octet table: another name", large),
        Case::quiet_tick("full-tick", "4,096-octet table: quiet tick", large),
    ]
}
